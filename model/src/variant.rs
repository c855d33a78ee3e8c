//! Wrong readings, one changed line each, for the tests (01, "Where hands go wrong", "Agreed"; 02, (i) to (iii), (v)).
//!
//! Outside this crate's own unit tests `wrong` is always false, so the store has none of them.

#[derive(Clone, Copy, Debug, PartialEq, Eq)]
pub enum Variant {
    /// A page applies only clearings of epochs below its own.
    PageAppliesBelowOnly,
    /// A rollback does not move LCE.
    RollbackKeepsLce,
    /// LSE is judged by open epochs, not by deps.
    LseByOpenEpochs,
    /// A clearing hides only the rows standing before it.
    ClearHidesBeforeOnly,
    /// LCE goes to the newest committed load, past an open one.
    LcePastOpen,
    /// Entries keep their old ends when a rollback (or a purge) rewrites their lot.
    OldEndsKept,
    /// A waiting load takes no place.
    WaitingFreesPlace,
    /// The deps of a new load name waiting loads too.
    DepsIncludeWaiting,
    /// A load that commits leaves the deps of the others.
    DepsForgetClosed,
    /// Closing the newest page gives its ticket out again.
    TicketReused,
    /// A purge leaves each row its own epoch.
    PurgeKeepsOwnEpoch,
    /// A purge is skipped whenever there is no clearing to apply.
    PurgeSkipsTooMuch,
    /// Appends by all but the first open load are acknowledged and not kept.
    OnlyFirstLoadKept,
    /// A load does not apply its own clearing.
    LoadSkipsOwnClear,
    /// A load applies clearings of epochs that it does not see.
    LoadAppliesUnseenClear,
    /// From its own load a clearing hides that load's rows after it, too.
    OwnClearHidesRowsAfter,
    /// From its own load a clearing hides only that load's rows.
    OwnClearHidesOwnOnly,
    /// Rows entries of one epoch that become neighbours are not joined.
    NotJoined,
    /// A refused append writes a word beyond the rows.
    RefusalWrites,
    /// A purge works at LCE.
    PurgeAtLce,
    /// Each batch adds an entry.
    AppendNeverExtends,
    /// A rollback leaves the load's clearings.
    RollbackKeepsClearings,
    /// A clearing removes rows of its own epoch after it, too, when purged.
    PurgeDropsRowsAfter,
    /// Refusal 9 is looked at before refusal 8.
    EntriesBeforeRows,
    /// A rewriting does not use the spare area.
    RewriteInPlace,
    /// A scan sets an unused bit of the last byte.
    ScanSetsUnusedBits,
    /// A batch that does not fit is refused, but what fits is kept.
    AppendPart,
    /// An empty batch adds an entry.
    EmptyBatchAddsEntry,
    /// The oldest open load is looked for before the load is closed.
    OldestBeforeClose,
    /// A commit or rollback that moves LCE names no load.
    OldestOnlyIfLceStays,
    /// A rollback names no load.
    OldestOnlyByCommit,
    /// The oldest load is named though it waits.
    OldestMayWait,
    /// The newest open load is named.
    NewestNamed,
    /// A total adds whole words.
    TotalOfWholeWords,
    /// A total is that of a page at LSE.
    TotalAtLse,
    /// A total counts the rows of open and waiting loads.
    TotalCountsOpen,
    /// A total counts rows that a clearing hides.
    TotalCountsHidden,
    /// A commit leaves the totals.
    CommitKeepsTotal,
    /// A rollback leaves the totals.
    RollbackKeepsTotal,
    /// A purge that rewrites sets the total to 0.
    PurgeDropsTotal,
    /// A save at 0 is one at LCE, as a page at 0 is.
    SaveZeroMeansLce,
    /// A save shows the lots as a page at LCE would.
    SaveAtLce,
    /// A save keeps rows that a clearing hides.
    SaveKeepsHidden,
    /// A save keeps the rows of open and waiting loads.
    SaveCountsOpen,
    /// An output that is just enough is too short.
    SaveNeedsOneMore,
    /// A save that is refused for a short output writes what fits.
    SaveShortWrites,
    /// A save sets the later bytes of the output to 0.
    SaveClearsRest,
    /// Numbers in a round stand high byte first.
    HighByteFirst,
    /// A recovery gives the first whole round.
    RecoverFirstRound,
    /// A recovery gives a round whose body is cut, the rows that are missing 0.
    RecoverCutRound,
    /// A recovery refuses a file that is cut.
    RecoverRefusesCut,
    /// A recovery does not judge a table of contents whose body is cut.
    RecoverCutUnjudged,
    /// A recovery gives the last whole round before a corrupt table of contents.
    RecoverStopsAtCorrupt,
    /// A recovery refuses a round of the same epoch as the round before.
    RecoverRefusesSame,
    /// A recovery refuses a round of the last epoch.
    RecoverRefusesLast,
    /// A recovery refuses a round of epoch 0 without rows.
    RecoverRefusesZero,
    /// A recovery refuses a lot of 512 rows.
    RecoverRefuses512,
    /// A recovery without a whole round leaves the store.
    RecoverKeepsWithoutRound,
    /// A recovery sets LSE to 0.
    RecoverLseZero,
    /// A recovery keeps the next ticket.
    RecoverKeepsTicket,
    /// A recovery leaves each lot in its area.
    RecoverKeepsAreas,
    /// A recovery gives a lot without rows an entry, too.
    RecoverEntryForEmpty,
    /// A recovery sets the totals to 0.
    RecoverDropsTotals,
}

impl Variant {
    pub const ALL: [Variant; 63] = [
        Variant::PageAppliesBelowOnly,
        Variant::RollbackKeepsLce,
        Variant::LseByOpenEpochs,
        Variant::ClearHidesBeforeOnly,
        Variant::LcePastOpen,
        Variant::OldEndsKept,
        Variant::WaitingFreesPlace,
        Variant::DepsIncludeWaiting,
        Variant::DepsForgetClosed,
        Variant::TicketReused,
        Variant::PurgeKeepsOwnEpoch,
        Variant::PurgeSkipsTooMuch,
        Variant::OnlyFirstLoadKept,
        Variant::LoadSkipsOwnClear,
        Variant::LoadAppliesUnseenClear,
        Variant::OwnClearHidesRowsAfter,
        Variant::OwnClearHidesOwnOnly,
        Variant::NotJoined,
        Variant::RefusalWrites,
        Variant::PurgeAtLce,
        Variant::AppendNeverExtends,
        Variant::RollbackKeepsClearings,
        Variant::PurgeDropsRowsAfter,
        Variant::EntriesBeforeRows,
        Variant::RewriteInPlace,
        Variant::ScanSetsUnusedBits,
        Variant::AppendPart,
        Variant::EmptyBatchAddsEntry,
        Variant::OldestBeforeClose,
        Variant::OldestOnlyIfLceStays,
        Variant::OldestOnlyByCommit,
        Variant::OldestMayWait,
        Variant::NewestNamed,
        Variant::TotalOfWholeWords,
        Variant::TotalAtLse,
        Variant::TotalCountsOpen,
        Variant::TotalCountsHidden,
        Variant::CommitKeepsTotal,
        Variant::RollbackKeepsTotal,
        Variant::PurgeDropsTotal,
        Variant::SaveZeroMeansLce,
        Variant::SaveAtLce,
        Variant::SaveKeepsHidden,
        Variant::SaveCountsOpen,
        Variant::SaveNeedsOneMore,
        Variant::SaveShortWrites,
        Variant::SaveClearsRest,
        Variant::HighByteFirst,
        Variant::RecoverFirstRound,
        Variant::RecoverCutRound,
        Variant::RecoverRefusesCut,
        Variant::RecoverCutUnjudged,
        Variant::RecoverStopsAtCorrupt,
        Variant::RecoverRefusesSame,
        Variant::RecoverRefusesLast,
        Variant::RecoverRefusesZero,
        Variant::RecoverRefuses512,
        Variant::RecoverKeepsWithoutRound,
        Variant::RecoverLseZero,
        Variant::RecoverKeepsTicket,
        Variant::RecoverKeepsAreas,
        Variant::RecoverEntryForEmpty,
        Variant::RecoverDropsTotals,
    ];
}

#[cfg(not(test))]
#[inline(always)]
pub fn wrong(_: Variant) -> bool {
    false
}

#[cfg(test)]
thread_local! {
    static CHOSEN: std::cell::Cell<Option<Variant>> = const { std::cell::Cell::new(None) };
}

#[cfg(test)]
pub fn wrong(variant: Variant) -> bool {
    CHOSEN.get() == Some(variant)
}

/// Chooses the wrong reading for this thread, or the right one.
#[cfg(test)]
pub fn choose(variant: Option<Variant>) {
    CHOSEN.set(variant);
}
