//! Known mistakes that can be planted in the model.

/// A sum or product that is kept in 32 bits by mistake is the remainder by this.
pub(crate) const TWO_TO_THE_32: u64 = 0x1_0000_0000;

/// A planted mistake, or none.
#[derive(Clone, Copy, Debug, PartialEq, Eq, Hash)]
pub enum Bug {
    /// The drive as the requirements have it.
    None,

    // Both packet devices.
    /// A fresh record has speed 0.
    FreshIsAutomatic,
    /// Changing the cartridge gives the speed of a fresh record.
    ChangeResetsSpeed,
    /// A marked block is unreadable, as it was before A6 of 02.
    MarkedIsUnreadable,
    /// Every kind above 4 is marked too.
    KindsAboveFourAreMarked,
    /// A READ passes over a marked block and does not copy it.
    ReadSkipsMarked,
    /// A READ's answer counts every block copied as marked.
    MarkedCountsPlain,
    /// A READ's answer counts the marked blocks before it too.
    MarkedCountsBefore,
    /// A READ's answer counts the marked blocks asked for, also those behind the stop.
    MarkedCountsAsked,
    /// A READ's answer counts the element that stopped it as marked.
    MarkedCountsStop,
    /// A WRITE over a marked block leaves its mark.
    WriteKeepsMark,
    /// A WRITE's answer shows the marked blocks ahead of it.
    WriteShowsMarked,
    /// A READ that is refused for its buffer shows the marked blocks ahead of it.
    RefusalShowsMarked,
    /// An unload goes through though the door is locked.
    UnloadIgnoresLock,
    /// An unload that the lock stops sets P 0.
    StoppedUnloadRewinds,
    /// An unload that the lock stops leaves the drive not loaded.
    StoppedUnloadUnloads,
    /// An unload that the lock stops unlocks.
    StoppedUnloadUnlocks,
    /// An unload that the lock stops ends with 5/53/00.
    StopLosesQualifier,
    /// An unload that the lock stops has a valid residue.
    StopIsValid,
    /// An unload that the lock stops is told before a pending attention.
    StopBeforeAttention,
    /// The lock stops a load too.
    LockStopsLoad,
    /// An unload goes through though locked where nothing is loaded.
    UnloadPassesWhereEmpty,
    /// An unload with retension goes through though locked.
    RetensionPassesLock,
    /// A load unlocks.
    LoadUnlocks,
    /// A fresh record is locked.
    FreshIsLocked,
    /// Changing the cartridge unlocks.
    ChangeUnlocks,
    /// Changing the cartridge locks.
    ChangeLocks,
    /// Changing the cartridge does nothing while locked.
    LockStopsChange,
    /// 1Eh needs a loaded cartridge.
    PreventNeedsCartridge,
    /// 1Eh passes a pending attention, as 03h and 12h do.
    PreventPassesAttention,
    /// 1Eh is obeyed though it ends with a pending attention.
    PreventObeyedAtAttention,
    /// 1Eh locks with any bit of byte 4.
    AnyBitLocks,
    /// 1Eh leaves the sense.
    PreventKeepsSense,
    /// 1Eh sets P 0.
    PreventRewinds,
    /// Page 2Ah shows LOCKED always.
    LockedShownOpen,
    /// Page 2Ah never shows LOCKED.
    LockedNeverShown,
    /// Page 2Ah shows LOCK only while locked.
    LockShownOnlyLocked,
    /// A list with page 2Ah locks or unlocks as its byte 6 says.
    ListSetsLock,
    /// A record's reserved bits beside the locked flag are read as locked.
    ReservedBitsLock,

    // Packet drive.
    /// A load with EOT ends with 5/53/02 while locked.
    StopBeforeFields,
    /// A WRITE FILEMARK over a marked block leaves it.
    FilemarkKeepsMark,
    /// SPACE over blocks does not count a marked one.
    SpaceSkipsMarked,
    /// SPACE over blocks is stopped by a marked one.
    SpaceStopsAtMarked,
    /// SPACE over filemarks counts a marked block.
    SpaceTakesMarkedForFilemark,
    /// A SPACE's answer shows the marked blocks ahead of it.
    SpaceShowsMarked,
    /// A READ that stops at a filemark counts it as a block moved.
    ResidueCountsFilemark,
    /// A write in the middle keeps U.
    WriteKeepsRecorded,
    /// An unknown opcode is told before a pending attention.
    AttentionAfterOpcode,
    /// A protected cartridge is found out after the blocks are stored.
    ProtectionAfterTransfer,
    /// A short buffer is refused before protection is looked at.
    ProtectionAfterBuffer,
    /// REQUEST SENSE clears a pending attention.
    SenseClearsAttention,
    /// INQUIRY leaves the sense.
    InquiryKeepsSense,
    /// Early warning is told at its border too.
    WarningAtBorder,
    /// The end of data never shows EOM.
    EndOfDataHidesEom,
    /// The end of data shows EOM at U = C - W too.
    EndOfDataShowsEomAtBorder,
    /// The end of data shows EOM wherever W is not 0.
    EndOfDataShowsEomForAnyWarning,
    /// The end of data shows EOM in a READ, not in a SPACE.
    SpaceHidesEom,
    /// A LOCATE beyond the end of data shows EOM where U > C - W.
    LocateShowsEom,
    /// SPACE back over filemarks ends on the end side.
    SpaceBackEndsBeyond,
    /// A LOCATE beyond the end of data has a valid residue.
    LocateBeyondIsValid,
    /// A READ clears the buffer beyond the transfer.
    ReadClearsRest,
    /// WRITE FILEMARK clears the block's bytes.
    FilemarkClearsBlock,
    /// The image's size is summed in 32 bits.
    SizeWraps,
    /// N * B is multiplied in 32 bits.
    NeedWraps,
    /// A position at the end of data is refused.
    PositionAtEndRefused,
    /// A page code is taken without its two high bits.
    PageCodeMasked,
    /// A wrong list answers the bytes it took.
    WrongListTakesBytes,
    /// Changing the cartridge keeps a pending reset.
    ChangeKeepsReset,
    /// A refused packet clears the sense.
    RefusalClearsSense,

    // Packet drive with a filemark index.
    /// The index takes in kinds at U and above.
    IndexOfCapacity,
    /// The index leaves out a filemark at place 0.
    IndexMissesFirst,
    /// The index leaves out a filemark right before U.
    IndexMissesLast,
    /// The index takes in marked blocks.
    IndexTakesMarked,
    /// An entry is the place behind its filemark.
    IndexTakesBeyond,
    /// An entry is its place cut to a byte.
    IndexCutToByte,
    /// The last filemark comes first.
    IndexDescends,
    /// An entry has its lowest byte first.
    IndexLittleEndian,
    /// The rest of the index is 00h.
    IndexRestZero,
    /// The rest of the index stays as it was.
    IndexLeavesRest,
    /// Bytes beyond the index become FFh.
    IndexClearsBeyond,
    /// The answer to `make` counts all elements.
    MakeCountsElements,
    /// The answer to `make` tells the bytes of the entries alone.
    MakeTellsEntries,
    /// The answer to `make` tells the bytes of the whole buffer.
    MakeTellsRoom,
    /// `make` gives 9 before 2.
    MakeJudgesLengthFirst,
    /// An index that is refused with 9 is filled as far as it goes.
    ShortIndexFilled,
    /// An index of 4*C - 1 bytes is taken.
    IndexOneShortTaken,
    /// An index of 4*U bytes is taken.
    IndexLengthByRecorded,
    /// An index of more than 4*C bytes is refused with 9.
    LongIndexRefused,
    /// 10 is given before 9.
    LengthAfterEntries,
    /// 9 and 10 are given before 1.
    IndexBeforePacketLength,
    /// 9 and 10 are given before 3.
    IndexBeforeRecord,
    /// A pending attention is told before 9 and 10.
    IndexAfterAttention,
    /// A drive that is not loaded says so before 9 and 10.
    IndexAfterLoaded,
    /// 4 is given before 9 and 10.
    IndexAfterBuffer,
    /// 9 and 10 are not judged for 03h.
    SensePassesIndex,
    /// 9 and 10 are not judged for 12h.
    InquiryPassesIndex,
    /// 9 and 10 are judged only for SPACE, WRITE and WRITE FILEMARK.
    OnlyUsersJudgeIndex,
    /// 10 is not noticed in the last entry.
    LastEntryUnchecked,
    /// 10 is not noticed behind the entries of the filemarks.
    RestUnchecked,
    /// 10 is not noticed in the two high bytes of an entry.
    HighBytesUnchecked,
    /// An index that ends before the last filemark is taken.
    MissingEntriesTaken,
    /// 10 is given where bytes beyond the index are not FFh.
    BeyondChecked,
    /// An index that is refused with 10 is made afresh.
    RefusalMendsIndex,
    /// 9 and 10 clear a pending attention.
    IndexRefusalClearsAttention,
    /// 9 and 10 clear the sense.
    IndexRefusalClearsSense,
    /// 9 and 10 are given after the image has changed.
    IndexRefusedAfterWork,
    /// The index stays as it was through WRITE.
    WriteKeepsIndex,
    /// The index stays as it was through WRITE FILEMARK.
    FilemarksKeepIndex,
    /// The index stays as it was where the cartridge gets full.
    FullWriteKeepsIndex,
    /// The index stays as it was at early warning.
    WarnedWriteKeepsIndex,
    /// Several filemarks that are stored at once get one entry.
    FilemarksIndexedOnce,
    /// Filemarks get entries though there was no room to store them.
    FilemarksIndexedAsAsked,
    /// Entries behind the new ones stay.
    EntriesLeftBehind,
    /// The entry of a filemark that is written over stays.
    EntryAtPlaceKept,
    /// The entry right before what is written goes.
    EntryBeforePlaceDropped,
    /// A write of nothing cuts the index at P.
    EmptyWriteCutsIndex,
    /// A write to a protected cartridge cuts the index at P.
    ProtectedWriteCutsIndex,
    /// A WRITE that is refused for its buffer cuts the index at P.
    RefusedWriteCutsIndex,
    /// An unload leaves an index of no filemark.
    UnloadClearsIndex,
    /// SPACE over filemarks ends before the last.
    IndexSpaceEndsBefore,
    /// SPACE over filemarks does not count the one at P.
    SpaceMissesFilemarkAtPlace,
    /// SPACE back over filemarks counts the one at P.
    SpaceBackTakesFilemarkAtPlace,
    /// SPACE over filemarks counts from the first entry on.
    SpaceCountsFromBeginning,
    /// SPACE over filemarks never begins behind the last entry.
    SpaceStuckAtLastEntry,
    /// SPACE over 0 filemarks goes behind the last one before P.
    SpaceOfNoneMoves,
    /// SPACE over filemarks ends behind the last entry where it should end at U.
    SpaceEndsBehindLastEntry,
    /// SPACE back over filemarks ends at the first entry where it should end at 0.
    SpaceBackEndsAtFirstEntry,
    /// The residue of SPACE over filemarks leaves out those before P too.
    SpaceCountsAllEntries,
    /// The residue of SPACE over filemarks is one short.
    IndexSpaceResidueShort,
    /// SPACE over filemarks shows no EOM at the end of data.
    IndexSpaceHidesEom,
    /// SPACE over filemarks shows no EOM at the beginning.
    IndexSpaceBeginningHidesEom,
    /// SPACE over -8,388,608 filemarks passes none.
    IndexSpaceLowestIsNone,
    /// SPACE over filemarks passes a pending attention.
    IndexSpacePassesAttention,
    /// SPACE over filemarks needs no loaded cartridge.
    IndexSpaceNeedsNoCartridge,
    /// SPACE over filemarks leaves the sense where it ends GOOD.
    IndexSpaceKeepsSense,

    // Floppy tape device.
    /// The residue at an unreadable block counts the block in error.
    BlockInErrorInResidue,
    /// Kind 2 stops a READ as a filemark.
    KindTwoIsFilemark,
    /// A WRITE sets U.
    FloppyWriteSetsRecorded,
    /// A WRITE stores marked blocks where WDAM is set.
    WriteFollowsWdam,
    /// A WRITE tells early warning.
    FloppyWarnsEarly,
    /// The end of data shows EOM where U > C - W.
    FloppyEndShowsEom,
    /// Transfers stop at the capacity.
    TransfersEndAtCapacity,
    /// The count is taken from three bytes.
    CountOfThreeBytes,
    /// LOCATE takes the product itself as a block's number.
    LocateTakesProduct,
    /// A block's number is judged only while a cartridge is loaded.
    LocateWaitsForReady,
    /// The product is multiplied in 32 bits.
    ProductWraps,
    /// A list that puts the product below P keeps P.
    ListBelowKeepsPosition,
    /// A list that puts the product at P sets P 0.
    ListAtPositionRewinds,
    /// A list with a product above the capacity is stored, though it is told to be wrong.
    LargeListStored,
    /// An unload resets the tape parameters.
    UnloadResetsParameters,
    /// An unload that the lock stops resets the tape parameters.
    StoppedUnloadResetsParameters,
    /// A load keeps the tape parameters.
    LoadKeepsParameters,
    /// A load keeps the tape parameters while locked.
    LockedLoadKeepsParameters,
    /// A load with the bit for EOT is a bad field.
    LoadMindsEot,
    /// Changing the cartridge keeps the tape parameters.
    ChangeKeepsParameters,
    /// Page 2Ah shows 64 blocks as its transfer limit.
    TransferLimitFixed,
    /// Reserved bits beside the flags are kept.
    ReservedFlagsKept,
    /// 10h is GOOD on a protected cartridge.
    FlushIgnoresProtection,
    /// An image with U below C is taken.
    UnfilledImageTaken,
    /// A record with a product above the capacity is taken.
    ProductAboveCapacityTaken,
    /// A position at the product is refused.
    PositionAtProductRefused,

    // Pulse drive.
    /// The train after a rejected 13 is taken as a track.
    RejectedSeekTakesTrack,
    /// A 7 sent while moving clears the error.
    ErrorClearedWhileMoving,
    /// A repeat stays owed after it was given.
    RepeatStaysOwed,
    /// A wait counts one tick more than it used.
    WaitCountsOneMore,
    /// The first tick goes all the way.
    TickJumps,
    /// A tick keeps unfinished arguments.
    TickKeepsArguments,
    /// Trains are cut to a byte.
    TrainsCutToByte,
    /// A 6 sent while moving counts as asking for status.
    StatusAskedWhileMoving,
    /// A 7 clears the new mark though no status was asked.
    NewMarkClearedUnasked,
    /// A later error overwrites the first.
    LaterErrorWins,
    /// Error 7 keeps the argument train as its command.
    TrackErrorKeepsTrain,
    /// A latched error leaves a run going.
    ErrorKeepsRun,
    /// A load at place 0 waits for a tick.
    LoadAtZeroMoves,
    /// A skip passes the end of the tape.
    SkipPassesEnd,
    /// An argument out of range is looked at as a command.
    OutOfRangeObeyed,
    /// A reset clears the new mark.
    ResetClearsNewMark,
    /// A reset drops the level.
    ResetDropsLevel,
    /// Removal while moving is no error.
    RemovalKeepsError,
    /// A 7 clears the error before it takes the report's bits.
    ErrorReportSendsNothing,
    /// Format and type are sent of a cartridge that is not referenced.
    TapeStatusUnreferenced,

    // A list of trains of the pulse drive.
    /// The trains before the first 0 are sent, and then the list is refused.
    ListSentToFirstZero,
    /// 5 is given for the first count alone.
    OnlyFirstCountJudged,
    /// 5 is given for the last count alone.
    OnlyLastCountJudged,
    /// 5 is not given for the first count.
    FirstCountUnjudged,
    /// 5 is not given for the last count.
    LastCountUnjudged,
    /// The counts of a list are cut to a byte.
    ListCutToByte,
    /// A level buffer of the list's length is refused.
    RoomAtLengthRefused,
    /// A level buffer one shorter than the list is taken, and the last level dropped.
    RoomOneShortTaken,
    /// A level buffer is refused that is shorter than the bytes of the list.
    RoomJudgedInBytes,
    /// The trains that a short level buffer has room for are sent, and then the list is refused.
    ShortRoomFilled,
    /// 4 is given before 5.
    RoomBeforeZero,
    /// 5 is given before 8.
    ZeroBeforeRecord,
    /// 4 is given before 8.
    RoomBeforeRecord,
    /// A refused list clears the level buffer.
    RefusalClearsLevels,
    /// A list that is refused with 5 or 4 writes the record in its canonical form.
    RefusedListWritesRecord,
    /// A refused list answers the drive's level.
    RefusalTellsLevel,
    /// An empty list is refused with 5.
    EmptyListRefused,
    /// An empty list answers level 0.
    EmptyListTellsLow,
    /// An empty list does not write the record in its canonical form.
    EmptyListKeepsRecord,
    /// Each level is written one place on.
    LevelOnePlaceOn,
    /// The level before each train is written.
    LevelBeforeTrain,
    /// Level 1 is written as FFh.
    LevelIsFf,
    /// A level is written into bit 0 of its byte.
    LevelKeepsHighBits,
    /// Bytes of the level buffer beyond the list are cleared.
    LevelsBeyondCleared,
    /// The answer to a list tells the level after its first train.
    AnswerTellsFirstLevel,
    /// The answer to a list tells its length as ticks.
    AnswerTellsLength,
    /// A tick passes between two trains of a list.
    TickBetweenTrains,
    /// A list ends at the train that latches an error.
    ListEndsAtError,
    /// Of a list the first 256 trains are sent.
    Only256Sent,
    /// A list begins with no open report and no waiting arguments.
    ListBeginsAnew,
    /// A list leaves no open report and no waiting arguments.
    ListLeavesNothingOpen,

    // Tape files.
    /// Words are written with the highest byte first.
    ExportBigEndian,
    /// An exported file has no end mark.
    ExportLacksEndMark,
    /// Elements at U and above are exported too.
    ExportOfCapacity,
    /// The last element is not exported.
    ExportMissesLast,
    /// A marked block is exported as an unreadable record.
    ExportMarkedUnreadable,
    /// An unreadable block is exported as plain data.
    ExportUnreadableAsData,
    /// Of the unreadable kinds only 0 is exported as an unreadable record.
    ExportOnlyZeroUnreadable,
    /// An unreadable block is exported as a record of 0 bytes.
    ExportUnreadableEmpty,
    /// An unreadable block is exported with bytes of 0.
    ExportUnreadableCleared,
    /// The second word of an unreadable record has no high bit.
    ExportSecondWordPlain,
    /// A tape mark has a second word.
    ExportMarkHasTwoWords,
    /// Every exported record has a pad byte.
    ExportPadsEven,
    /// An exported record takes the bytes of as many blocks on as there are records before it, filemarks left out.
    ExportBlocksInRow,
    /// 4 is given where the file buffer would be too short if no element were a filemark.
    ExportNeedsMost,
    /// 4 is given as if there were no end mark.
    ExportNeedsNoEndMark,
    /// 4 is given where the file buffer is longer than the file, too.
    ExportLongRefused,
    /// A file buffer without room for an end mark is refused with 4 before 2.
    ExportJudgesRoomFirst,
    /// A file buffer that is too short is filled as far as it goes.
    ShortFileFilled,
    /// An export clears the bytes of the buffer beyond the file.
    ExportClearsBeyond,
    /// The export's answer leaves the end mark out of the bytes.
    ExportTellsNoEndMark,
    /// The export's answer gives the length of the buffer.
    ExportTellsRoom,
    /// The export's answer leaves filemarks out of the blocks.
    ExportCountsRecords,
    /// The export's answer tells how many blocks were marked.
    ExportTellsMarked,
    /// Words are read with the highest byte first.
    ImportBigEndian,
    /// The second word of a record is not looked at.
    SecondWordUnread,
    /// The two words of a record are compared without their high bits.
    SecondWordLosesHighBit,
    /// The two words of a record are compared in their low two bytes alone.
    SecondWordCutToTwoBytes,
    /// An odd record has no pad byte.
    PadForgotten,
    /// A record has a pad byte whatever its length.
    PadOfEven,
    /// A pad byte that is not 0 is refused with 11.
    PadJudged,
    /// The high bit of an unreadable record's word counts in its length.
    LengthKeepsHighBit,
    /// The highest byte of a word is no part of the length.
    LengthOf24Bits,
    /// The bytes that a record needs are kept in 31 bits.
    FileNeedWraps,
    /// An unreadable record of 0 bytes is a tape mark.
    EmptyUnreadableIsMark,
    /// The end mark is read as the length of a record.
    EndMarkIsRecord,
    /// The file goes on behind its end mark.
    EndMarkPassed,
    /// What follows the end mark is judged, though not stored.
    JudgedBeyondEndMark,
    /// A file that ends without an end mark is refused with 11.
    MissingEndMarkRefused,
    /// A file of 0 bytes is refused with 11.
    EmptyFileRefused,
    /// One to three bytes that are left are the end of the file.
    FewBytesAreEnd,
    /// Two tape marks in a row are the end of the file.
    TwoMarksEnd,
    /// 12 is judged before 11.
    SizeBeforeLengths,
    /// 13 is judged before 12.
    CapacityBeforeSize,
    /// 13 is judged before 11 and 12.
    CapacityBeforeLengths,
    /// 12 is given only where no 11 or 13 is in the whole file.
    SizesJudgedLast,
    /// 13 is given only where no 11 or 12 is in the whole file.
    CapacityJudgedLast,
    /// A file that is cut or disagrees is refused with 11 before 2.
    FileBeforeImage,
    /// A record shorter than a block is taken; the rest of the block stays.
    ShorterRecordTaken,
    /// An unreadable record of any length is taken.
    UnreadableSizeUnjudged,
    /// A file of C + 1 elements is taken.
    OneAboveCapacityTaken,
    /// A file of C elements is refused with 13.
    FullFileRefused,
    /// Tape marks do not count for 13.
    MarksUncounted,
    /// 13 is given for more than U elements.
    CapacityByRecorded,
    /// 13 is given for more than C - W elements.
    WarningEndsImport,
    /// A write-protected image is refused with 2.
    ProtectedImageRefused,
    /// An import takes the write protection away.
    ImportUnprotects,
    /// An import leaves U.
    RecordedKept,
    /// An import sets U only where that makes it larger.
    RecordedOnlyGrows,
    /// An import leaves tape marks out of U.
    RecordedCountsRecords,
    /// A file without elements leaves U.
    EmptyFileKeepsRecorded,
    /// An unreadable record is stored as kind 1.
    UnreadableStoredAsData,
    /// An unreadable record is stored as kind 3.
    UnreadableStoredAsThree,
    /// The bytes of an unreadable record are not stored.
    UnreadableBytesDropped,
    /// An unreadable record leaves a kind that is unreadable already.
    UnreadableKeepsKind,
    /// A record over a marked block leaves its mark.
    ImportKeepsMarked,
    /// A tape mark clears the bytes of its block.
    MarkClearsBlock,
    /// A record is stored in the block behind that of the record before it, tape marks left out.
    ImportBlocksInRow,
    /// Elements are stored from U on.
    ImportAppends,
    /// An import clears the kinds at U and above.
    ImportClearsKindsBeyond,
    /// An import clears the blocks at U and above.
    ImportClearsBlocksBeyond,
    /// An import leaves the record as it was.
    ImportKeepsRecord,
    /// An import makes the record fresh.
    ImportMakesFresh,
    /// A packet record that breaks the rules is refused with 3.
    ImportJudgesRecord,
    /// An import leaves P.
    ImportKeepsPosition,
    /// An import leaves a drive without a cartridge not loaded.
    ImportKeepsUnloaded,
    /// An import leaves the attention.
    ImportKeepsAttention,
    /// An import leaves the sense.
    ImportKeepsSense,
    /// An import gives the speed of a fresh record.
    ImportResetsSpeed,
    /// An import unlocks the door.
    ImportUnlocks,
    /// An import leaves the record as it was where the door is locked.
    LockStopsImport,
    /// The import's answer leaves the end mark out of the bytes.
    ImportTellsNoEndMark,
    /// The import's answer gives the length of the file, also where the end mark comes before.
    ImportTellsFileLength,
    /// The import's answer gives the bytes stored in blocks.
    ImportTellsBlockBytes,
    /// The import's answer leaves tape marks out of the blocks.
    ImportCountsRecords,
    /// The import's answer tells how many records were unreadable where the marked blocks stand.
    ImportTellsUnreadable,
    /// Elements before the one that is refused are stored.
    StoredBeforeJudged,
    /// A refused import tells the bytes before the item that is refused.
    RefusalTellsPlace,
    /// A refused import changes the cartridge.
    RefusedImportChangesRecord,
}

impl Bug {
    /// Mistakes in both packet devices.
    pub const PACKET_DEVICES: [Bug; 38] = [
        Bug::FreshIsAutomatic,
        Bug::ChangeResetsSpeed,
        Bug::MarkedIsUnreadable,
        Bug::KindsAboveFourAreMarked,
        Bug::ReadSkipsMarked,
        Bug::MarkedCountsPlain,
        Bug::MarkedCountsBefore,
        Bug::MarkedCountsAsked,
        Bug::MarkedCountsStop,
        Bug::WriteKeepsMark,
        Bug::WriteShowsMarked,
        Bug::RefusalShowsMarked,
        Bug::UnloadIgnoresLock,
        Bug::StoppedUnloadRewinds,
        Bug::StoppedUnloadUnloads,
        Bug::StoppedUnloadUnlocks,
        Bug::StopLosesQualifier,
        Bug::StopIsValid,
        Bug::StopBeforeAttention,
        Bug::LockStopsLoad,
        Bug::UnloadPassesWhereEmpty,
        Bug::RetensionPassesLock,
        Bug::LoadUnlocks,
        Bug::FreshIsLocked,
        Bug::ChangeUnlocks,
        Bug::ChangeLocks,
        Bug::LockStopsChange,
        Bug::PreventNeedsCartridge,
        Bug::PreventPassesAttention,
        Bug::PreventObeyedAtAttention,
        Bug::AnyBitLocks,
        Bug::PreventKeepsSense,
        Bug::PreventRewinds,
        Bug::LockedShownOpen,
        Bug::LockedNeverShown,
        Bug::LockShownOnlyLocked,
        Bug::ListSetsLock,
        Bug::ReservedBitsLock,
    ];

    /// Further mistakes in the packet drive.
    pub const PACKET: [Bug; 30] = [
        Bug::StopBeforeFields,
        Bug::FilemarkKeepsMark,
        Bug::SpaceSkipsMarked,
        Bug::SpaceStopsAtMarked,
        Bug::SpaceTakesMarkedForFilemark,
        Bug::SpaceShowsMarked,
        Bug::ResidueCountsFilemark,
        Bug::WriteKeepsRecorded,
        Bug::AttentionAfterOpcode,
        Bug::ProtectionAfterTransfer,
        Bug::ProtectionAfterBuffer,
        Bug::SenseClearsAttention,
        Bug::InquiryKeepsSense,
        Bug::WarningAtBorder,
        Bug::EndOfDataHidesEom,
        Bug::EndOfDataShowsEomAtBorder,
        Bug::EndOfDataShowsEomForAnyWarning,
        Bug::SpaceHidesEom,
        Bug::LocateShowsEom,
        Bug::SpaceBackEndsBeyond,
        Bug::LocateBeyondIsValid,
        Bug::ReadClearsRest,
        Bug::FilemarkClearsBlock,
        Bug::SizeWraps,
        Bug::NeedWraps,
        Bug::PositionAtEndRefused,
        Bug::PageCodeMasked,
        Bug::WrongListTakesBytes,
        Bug::ChangeKeepsReset,
        Bug::RefusalClearsSense,
    ];

    /// Further mistakes in the packet drive with a filemark index.
    pub const INDEX: [Bug; 66] = [
        Bug::IndexOfCapacity,
        Bug::IndexMissesFirst,
        Bug::IndexMissesLast,
        Bug::IndexTakesMarked,
        Bug::IndexTakesBeyond,
        Bug::IndexCutToByte,
        Bug::IndexDescends,
        Bug::IndexLittleEndian,
        Bug::IndexRestZero,
        Bug::IndexLeavesRest,
        Bug::IndexClearsBeyond,
        Bug::MakeCountsElements,
        Bug::MakeTellsEntries,
        Bug::MakeTellsRoom,
        Bug::MakeJudgesLengthFirst,
        Bug::ShortIndexFilled,
        Bug::IndexOneShortTaken,
        Bug::IndexLengthByRecorded,
        Bug::LongIndexRefused,
        Bug::LengthAfterEntries,
        Bug::IndexBeforePacketLength,
        Bug::IndexBeforeRecord,
        Bug::IndexAfterAttention,
        Bug::IndexAfterLoaded,
        Bug::IndexAfterBuffer,
        Bug::SensePassesIndex,
        Bug::InquiryPassesIndex,
        Bug::OnlyUsersJudgeIndex,
        Bug::LastEntryUnchecked,
        Bug::RestUnchecked,
        Bug::HighBytesUnchecked,
        Bug::MissingEntriesTaken,
        Bug::BeyondChecked,
        Bug::RefusalMendsIndex,
        Bug::IndexRefusalClearsAttention,
        Bug::IndexRefusalClearsSense,
        Bug::IndexRefusedAfterWork,
        Bug::WriteKeepsIndex,
        Bug::FilemarksKeepIndex,
        Bug::FullWriteKeepsIndex,
        Bug::WarnedWriteKeepsIndex,
        Bug::FilemarksIndexedOnce,
        Bug::FilemarksIndexedAsAsked,
        Bug::EntriesLeftBehind,
        Bug::EntryAtPlaceKept,
        Bug::EntryBeforePlaceDropped,
        Bug::EmptyWriteCutsIndex,
        Bug::ProtectedWriteCutsIndex,
        Bug::RefusedWriteCutsIndex,
        Bug::UnloadClearsIndex,
        Bug::IndexSpaceEndsBefore,
        Bug::SpaceMissesFilemarkAtPlace,
        Bug::SpaceBackTakesFilemarkAtPlace,
        Bug::SpaceCountsFromBeginning,
        Bug::SpaceStuckAtLastEntry,
        Bug::SpaceOfNoneMoves,
        Bug::SpaceEndsBehindLastEntry,
        Bug::SpaceBackEndsAtFirstEntry,
        Bug::SpaceCountsAllEntries,
        Bug::IndexSpaceResidueShort,
        Bug::IndexSpaceHidesEom,
        Bug::IndexSpaceBeginningHidesEom,
        Bug::IndexSpaceLowestIsNone,
        Bug::IndexSpacePassesAttention,
        Bug::IndexSpaceNeedsNoCartridge,
        Bug::IndexSpaceKeepsSense,
    ];

    /// Further mistakes in the floppy tape device.
    pub const FLOPPY: [Bug; 26] = [
        Bug::BlockInErrorInResidue,
        Bug::KindTwoIsFilemark,
        Bug::FloppyWriteSetsRecorded,
        Bug::WriteFollowsWdam,
        Bug::FloppyWarnsEarly,
        Bug::FloppyEndShowsEom,
        Bug::TransfersEndAtCapacity,
        Bug::CountOfThreeBytes,
        Bug::LocateTakesProduct,
        Bug::LocateWaitsForReady,
        Bug::ProductWraps,
        Bug::ListBelowKeepsPosition,
        Bug::ListAtPositionRewinds,
        Bug::LargeListStored,
        Bug::UnloadResetsParameters,
        Bug::StoppedUnloadResetsParameters,
        Bug::LoadKeepsParameters,
        Bug::LockedLoadKeepsParameters,
        Bug::LoadMindsEot,
        Bug::ChangeKeepsParameters,
        Bug::TransferLimitFixed,
        Bug::ReservedFlagsKept,
        Bug::FlushIgnoresProtection,
        Bug::UnfilledImageTaken,
        Bug::ProductAboveCapacityTaken,
        Bug::PositionAtProductRefused,
    ];

    /// Mistakes in the pulse drive.
    pub const PULSE: [Bug; 20] = [
        Bug::RejectedSeekTakesTrack,
        Bug::ErrorClearedWhileMoving,
        Bug::RepeatStaysOwed,
        Bug::WaitCountsOneMore,
        Bug::TickJumps,
        Bug::TickKeepsArguments,
        Bug::TrainsCutToByte,
        Bug::StatusAskedWhileMoving,
        Bug::NewMarkClearedUnasked,
        Bug::LaterErrorWins,
        Bug::TrackErrorKeepsTrain,
        Bug::ErrorKeepsRun,
        Bug::LoadAtZeroMoves,
        Bug::SkipPassesEnd,
        Bug::OutOfRangeObeyed,
        Bug::ResetClearsNewMark,
        Bug::ResetDropsLevel,
        Bug::RemovalKeepsError,
        Bug::ErrorReportSendsNothing,
        Bug::TapeStatusUnreferenced,
    ];

    /// Mistakes in a list of trains.
    pub const LIST: [Bug; 31] = [
        Bug::ListSentToFirstZero,
        Bug::OnlyFirstCountJudged,
        Bug::OnlyLastCountJudged,
        Bug::FirstCountUnjudged,
        Bug::LastCountUnjudged,
        Bug::ListCutToByte,
        Bug::RoomAtLengthRefused,
        Bug::RoomOneShortTaken,
        Bug::RoomJudgedInBytes,
        Bug::ShortRoomFilled,
        Bug::RoomBeforeZero,
        Bug::ZeroBeforeRecord,
        Bug::RoomBeforeRecord,
        Bug::RefusalClearsLevels,
        Bug::RefusedListWritesRecord,
        Bug::RefusalTellsLevel,
        Bug::EmptyListRefused,
        Bug::EmptyListTellsLow,
        Bug::EmptyListKeepsRecord,
        Bug::LevelOnePlaceOn,
        Bug::LevelBeforeTrain,
        Bug::LevelIsFf,
        Bug::LevelKeepsHighBits,
        Bug::LevelsBeyondCleared,
        Bug::AnswerTellsFirstLevel,
        Bug::AnswerTellsLength,
        Bug::TickBetweenTrains,
        Bug::ListEndsAtError,
        Bug::Only256Sent,
        Bug::ListBeginsAnew,
        Bug::ListLeavesNothingOpen,
    ];

    /// Mistakes in writing tape files out.
    pub const EXPORT: [Bug; 23] = [
        Bug::ExportBigEndian,
        Bug::ExportLacksEndMark,
        Bug::ExportOfCapacity,
        Bug::ExportMissesLast,
        Bug::ExportMarkedUnreadable,
        Bug::ExportUnreadableAsData,
        Bug::ExportOnlyZeroUnreadable,
        Bug::ExportUnreadableEmpty,
        Bug::ExportUnreadableCleared,
        Bug::ExportSecondWordPlain,
        Bug::ExportMarkHasTwoWords,
        Bug::ExportPadsEven,
        Bug::ExportBlocksInRow,
        Bug::ExportNeedsMost,
        Bug::ExportNeedsNoEndMark,
        Bug::ExportLongRefused,
        Bug::ExportJudgesRoomFirst,
        Bug::ShortFileFilled,
        Bug::ExportClearsBeyond,
        Bug::ExportTellsNoEndMark,
        Bug::ExportTellsRoom,
        Bug::ExportCountsRecords,
        Bug::ExportTellsMarked,
    ];

    /// Mistakes in reading tape files in.
    pub const IMPORT: [Bug; 65] = [
        Bug::ImportBigEndian,
        Bug::SecondWordUnread,
        Bug::SecondWordLosesHighBit,
        Bug::SecondWordCutToTwoBytes,
        Bug::PadForgotten,
        Bug::PadOfEven,
        Bug::PadJudged,
        Bug::LengthKeepsHighBit,
        Bug::LengthOf24Bits,
        Bug::FileNeedWraps,
        Bug::EmptyUnreadableIsMark,
        Bug::EndMarkIsRecord,
        Bug::EndMarkPassed,
        Bug::JudgedBeyondEndMark,
        Bug::MissingEndMarkRefused,
        Bug::EmptyFileRefused,
        Bug::FewBytesAreEnd,
        Bug::TwoMarksEnd,
        Bug::SizeBeforeLengths,
        Bug::CapacityBeforeSize,
        Bug::CapacityBeforeLengths,
        Bug::SizesJudgedLast,
        Bug::CapacityJudgedLast,
        Bug::FileBeforeImage,
        Bug::ShorterRecordTaken,
        Bug::UnreadableSizeUnjudged,
        Bug::OneAboveCapacityTaken,
        Bug::FullFileRefused,
        Bug::MarksUncounted,
        Bug::CapacityByRecorded,
        Bug::WarningEndsImport,
        Bug::ProtectedImageRefused,
        Bug::ImportUnprotects,
        Bug::RecordedKept,
        Bug::RecordedOnlyGrows,
        Bug::RecordedCountsRecords,
        Bug::EmptyFileKeepsRecorded,
        Bug::UnreadableStoredAsData,
        Bug::UnreadableStoredAsThree,
        Bug::UnreadableBytesDropped,
        Bug::UnreadableKeepsKind,
        Bug::ImportKeepsMarked,
        Bug::MarkClearsBlock,
        Bug::ImportBlocksInRow,
        Bug::ImportAppends,
        Bug::ImportClearsKindsBeyond,
        Bug::ImportClearsBlocksBeyond,
        Bug::ImportKeepsRecord,
        Bug::ImportMakesFresh,
        Bug::ImportJudgesRecord,
        Bug::ImportKeepsPosition,
        Bug::ImportKeepsUnloaded,
        Bug::ImportKeepsAttention,
        Bug::ImportKeepsSense,
        Bug::ImportResetsSpeed,
        Bug::ImportUnlocks,
        Bug::LockStopsImport,
        Bug::ImportTellsNoEndMark,
        Bug::ImportTellsFileLength,
        Bug::ImportTellsBlockBytes,
        Bug::ImportCountsRecords,
        Bug::ImportTellsUnreadable,
        Bug::StoredBeforeJudged,
        Bug::RefusalTellsPlace,
        Bug::RefusedImportChangesRecord,
    ];
}
