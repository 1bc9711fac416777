//! The ways in which the second decoder can be made wrong.

#[derive(Clone, Copy, PartialEq, Eq, Debug)]
pub enum Fault {
    /// The right decoder.
    None,
    /// Equal correlations give the codeword of the lower mask instead of a tie.
    LowerMask,
    /// A place flips as soon as the votes so far suffice, so later directions see a mixed word.
    FlipsDuringRound,
    /// A direction without a codeword votes as if it had decoded zeros.
    AbstainerVotesZeros,
    /// The vote counts directions that abstained: a place flips when 2 × its votes > n − 1, as before document 02.
    AbstainersCounted,
    /// A place flips also when 2 × its votes equals the number of directions that did not abstain.
    EqualityFlips,
    /// A tie at order 0 gives zeros.
    OrderZeroTieZeros,
    /// Leaves are counted in the first round of the reading asked for, and in no later one.
    FirstOutermostRoundLeaves,
    /// Leaves are counted in the last round of the reading asked for only.
    LastOutermostRoundLeaves,
    /// Leaves of an inner reading are counted in its first round only.
    InnerFirstRoundLeaves,
    /// The lowest one of a direction serves as h, in projection and vote alike.
    LowestOneEverywhere,
    /// The lowest one of a direction serves as h in the projection only.
    LowestOneInProjection,
    /// The lowest one of a direction serves as h in the vote only.
    LowestOneInVote,
    /// A settled word is accepted without the codeword test.
    SettledUntested,
    /// A codeword reached by the flips of the last permitted round is accepted.
    CodewordAtRoundLimit,
    /// 12 also where the leaf count equals the limit.
    EqualIsTwelve,
    /// Every reading is refused by this number, and nothing is written.
    Always9,
    Always10,
    Always11,
    Always12,
    /// An accepted word is the received one.
    ReceivedWordBack,
    /// The leaf count is one round's, whatever was read.
    ConstantLeaves,
    /// One real round; a second is reported as if nothing had flipped in it.
    OneRealRound,
    /// An accepted word is zeros.
    AlwaysZeros,
    /// An accepted word is not written.
    OutputNeverWritten,
    /// The received word is written where the reading is refused.
    OutputOnRefusal,
    /// The area keeps what was in it.
    AreaNotCleared,
    /// Only the first 8 × n numbers of the area are cleared.
    AreaTailKept,
    /// The area is cleared after 8 too.
    AreaClearedAfter8,
    /// A refusal has one place mended.
    OneMendedOnRefusal,
    /// At order 1 no place is mended.
    NoneMendedAtOrderOne,
    /// The ones of the accepted word are the places mended.
    OnesMended,
    /// 8 names the greatest place whose byte is above 1.
    HighestBadPlace,
    /// The search for the place that 8 names starts at place 1.
    BadPlaceFromOne,
    /// 8 names the place after the smallest bad one.
    PlaceAfterBad,
    /// Message bits go by degree first, masks ascending within a degree.
    MasksByDegree,
    /// The first variable stands in the senior place.
    SeniorFirst,
    /// The message reader does not test the word.
    MessageUntested,
    /// The codeword test's steps test the sum of the halves at order r.
    SumAtOrder,
    /// They do not test the first half.
    FirstHalfUntested,
    /// They pass every word at r = 0.
    OrderZeroUntested,
    /// The second correlation of a gap is the greatest of those smaller than the greatest, so that a tie has a gap.
    SecondIsSmaller,
    /// The gap is between signed correlations.
    SignedCorrelations,
    /// The area keeps what was in it after a gap.
    GapAreaNotCleared,
    /// 20 names the last entry outside the limits.
    LastEntryNamed,
    /// 20 is tested before 19.
    EntriesFirst,
    /// A leaf limit in a table file has its junior byte first.
    JuniorByteFirst,
    /// An entry's m may be 2.
    ExponentTwo,
    /// A number above 31 but below the count finds the entry 32 lower.
    EntryAbove31,
    /// The area is cleared after 19 and 20.
    AreaClearedAfterLoad,
    /// A record without bits is refused 16 before its profile is tested.
    BitsBefore14,
    /// A tally's count goes on from 4,294,967,295 to 0.
    CountsWrap,
    /// Answer 31 is not counted.
    Answer31Uncounted,
    /// Answer 32 is counted as 31.
    Answer32Counted,
    /// A save that is refused 26 overwrites another name's tally.
    RefusedSaveOverwrites,
    /// With sixteen names held a save is refused 26 even under one of them.
    FullRefusesHeldNames,
    /// Dropping a name frees another one's place.
    AnotherNameDropped,
    /// Names are compared in seven bytes.
    SevenByteNames,
    /// Returning to a name drops it.
    ReturningDrops,
    /// Returning to an unknown name clears the tally.
    UnknownNameClears,
    /// A step of a load is kept to 32 bits only at its end.
    ShiftsUncut,
    /// A step of a load shifts right by 7.
    OtherShift,
    /// A message bit of a load is the state's lowest.
    LowestBitOfState,
    /// A wrong place that is drawn again is right again.
    RepeatedPlaceMended,
    /// At most n - 1 steps are made for places.
    OneDrawFewer,
    /// The message's steps are among the n for places.
    MessageAmongTheSteps,
    /// A block whose last wrong place is drawn at step n is called short.
    WholeAtTheEndIsShort,
    /// n wrong places are refused 22.
    AllPlacesRefused,
    /// 22 is tested before 21.
    TwentyTwoBefore21,
    /// 6 is tested before 22.
    LengthBefore22,
    /// A refused call for a block makes a step.
    RefusedCallSteps,
    /// A refused call for a block clears its buffer.
    RefusedBlockWritten,
    /// The columns of an array are decoded before its rows.
    ColumnsFirst,
    /// A refused row or column of an array is replaced by zeros.
    RefusedAsZeros,
    /// The leaf counts of an array's refused readings are left out.
    RefusedUncounted,
    /// An array's leaf limit is one for all readings.
    LimitOfTheArray,
    /// 27 is tested before 1.
    TwentySevenFirst,
    /// 2 of the row code is tested after 1 and 27 of the column code.
    RowOrderLate,
    /// The area that an array asks is that of a row.
    AreaOfTheRow,
    /// 8 names the place in its row.
    PlaceInTheRow,
    /// The output is written on 28.
    OutputOn28,
    /// An array is accepted without the last test of its rows.
    RowsUntested,
    /// The area keeps what was in it after an array.
    ArrayAreaNotCleared,
    /// The area is cleared after 27.
    AreaClearedAfter27,
    /// A sum of 0 at order 0 gives zeros, on confidences.
    SumZeroGivesZeros,
    /// Equal correlations of confidences give the lower mask's codeword.
    LowerMaskOfValues,
    /// Inner readings of confidences make one round.
    OneInnerRound,
    /// A reading of confidences ends when a round changes nothing.
    StopsUnchanged,
    /// 11 is tested before 17.
    ElevenBefore17,
    /// The word of the signs is accepted untested.
    SignsUntested,
    /// A place's own old value is in its sum.
    OwnValueAdded,
    /// Later directions of a round see the sums of the earlier ones.
    NewValuesSeen,
    /// If all directions abstained, every value becomes 0.
    AllAbstainedGivesZeros,
    /// The projection of two confidences takes the greater magnitude.
    GreaterMagnitude,
    /// An inner reading that ends with a value 0 votes by its signs.
    Inner17Votes,
    /// A direction without a codeword adds as if it had decoded zeros.
    AbstainerAddsValues,
    /// A share is negated where the decoded bit differs from the projected sign.
    NegatedWhereChanged,
    /// A sum is cut after each addition.
    CutWhileAdding,
    /// A sum is cut to −2,048 at the lower end.
    CutTo2048,
    /// A place whose sum is 0 keeps its value.
    SumZeroKeepsValue,
    /// 12 is tested after 17.
    TwelveAfter17,
    /// 17 names the greatest place whose value is 0.
    HighestZeroNamed,
    /// A confidence of 0 counts as bit 1 among the places mended.
    ZeroMendedAsOne,
    /// A confidence of 0 is never among the places mended.
    ZeroNeverMended,
    /// The range of confidences is −2,048 to 2,048.
    RangeTo2048,
    /// A confidence of −32,768 is in the range, as its own negative.
    LeastNumberAllowed,
    /// 18 names the greatest place outside the range.
    HighestOutside,
    /// 18 is tested before 7.
    EighteenBefore7,
    /// The area is cleared after 18.
    AreaClearedAfter18,
    /// The area keeps what was in it after 17.
    AreaKeptAfter17,
    /// The output is written on 17.
    OutputOn17,
    /// A meter that was refused sends the same block again.
    SameBlockAgain,
    /// A meter whose block was accepted as another codeword sends again.
    OtherSentAgain,
    /// Every later turn has all meters that were refused in the first.
    AllFirstRefusedSend,
    /// A refused meter sends again at once, not in the next turn.
    RetriedAtOnce,
    /// The last of the meters refused in the first turn does not send in the second.
    SecondTurnSkipsOne,
    /// One turn more than the retry limit is made.
    OneTurnMore,
    /// Tries are counted from 1.
    TryFromOne,
    /// Each turn begins the load anew.
    OneLoadForEachTurn,
    /// Another codeword is shown as right.
    OtherShownRight,
    /// The block's buffer holds the decoded word.
    BufferHoldsDecoded,
    /// The block's buffer is cleared where no meter is left.
    BlockAfterNoneLeft,
    /// The area keeps what was in it after a step.
    StreetAreaNotCleared,
    /// None is left as soon as the last meter has sent.
    NoneLeftAtTheEnd,
    /// A step is written in part where the log has room for a part.
    TripleCut,
    /// No step is made once the log is full.
    LogEndsTheSteps,
    /// 256 meters are refused 23.
    Meters256Refused,
    /// A retry limit of 15 is refused 24.
    Retries15Refused,
    /// 24 is tested before 23.
    TwentyFourBefore23,
    /// 14 is tested before 24.
    FourteenBefore24,
    /// 21 is tested before 14.
    TwentyOneBefore14,
    /// 7 is tested before 6.
    SevenBefore6,
    /// A refused street clears its buffers.
    StreetWrittenOnRefusal,
}

impl Fault {
    pub const ALL: &'static [Fault] = &[
        Fault::LowerMask,
        Fault::FlipsDuringRound,
        Fault::AbstainerVotesZeros,
        Fault::AbstainersCounted,
        Fault::EqualityFlips,
        Fault::OrderZeroTieZeros,
        Fault::FirstOutermostRoundLeaves,
        Fault::LastOutermostRoundLeaves,
        Fault::InnerFirstRoundLeaves,
        Fault::LowestOneEverywhere,
        Fault::LowestOneInProjection,
        Fault::LowestOneInVote,
        Fault::SettledUntested,
        Fault::CodewordAtRoundLimit,
        Fault::EqualIsTwelve,
        Fault::Always9,
        Fault::Always10,
        Fault::Always11,
        Fault::Always12,
        Fault::ReceivedWordBack,
        Fault::ConstantLeaves,
        Fault::OneRealRound,
        Fault::AlwaysZeros,
        Fault::OutputNeverWritten,
        Fault::OutputOnRefusal,
        Fault::AreaNotCleared,
        Fault::AreaTailKept,
        Fault::AreaClearedAfter8,
        Fault::OneMendedOnRefusal,
        Fault::NoneMendedAtOrderOne,
        Fault::OnesMended,
        Fault::HighestBadPlace,
        Fault::BadPlaceFromOne,
        Fault::PlaceAfterBad,
        Fault::MasksByDegree,
        Fault::SeniorFirst,
        Fault::MessageUntested,
        Fault::SumAtOrder,
        Fault::FirstHalfUntested,
        Fault::OrderZeroUntested,
        Fault::SecondIsSmaller,
        Fault::SignedCorrelations,
        Fault::GapAreaNotCleared,
        Fault::LastEntryNamed,
        Fault::EntriesFirst,
        Fault::JuniorByteFirst,
        Fault::ExponentTwo,
        Fault::EntryAbove31,
        Fault::AreaClearedAfterLoad,
        Fault::BitsBefore14,
        Fault::CountsWrap,
        Fault::Answer31Uncounted,
        Fault::Answer32Counted,
        Fault::RefusedSaveOverwrites,
        Fault::FullRefusesHeldNames,
        Fault::AnotherNameDropped,
        Fault::SevenByteNames,
        Fault::ReturningDrops,
        Fault::UnknownNameClears,
        Fault::ShiftsUncut,
        Fault::OtherShift,
        Fault::LowestBitOfState,
        Fault::RepeatedPlaceMended,
        Fault::OneDrawFewer,
        Fault::MessageAmongTheSteps,
        Fault::WholeAtTheEndIsShort,
        Fault::AllPlacesRefused,
        Fault::TwentyTwoBefore21,
        Fault::LengthBefore22,
        Fault::RefusedCallSteps,
        Fault::RefusedBlockWritten,
        Fault::ColumnsFirst,
        Fault::RefusedAsZeros,
        Fault::RefusedUncounted,
        Fault::LimitOfTheArray,
        Fault::TwentySevenFirst,
        Fault::RowOrderLate,
        Fault::AreaOfTheRow,
        Fault::PlaceInTheRow,
        Fault::OutputOn28,
        Fault::RowsUntested,
        Fault::ArrayAreaNotCleared,
        Fault::AreaClearedAfter27,
        Fault::SumZeroGivesZeros,
        Fault::LowerMaskOfValues,
        Fault::OneInnerRound,
        Fault::StopsUnchanged,
        Fault::ElevenBefore17,
        Fault::SignsUntested,
        Fault::OwnValueAdded,
        Fault::NewValuesSeen,
        Fault::AllAbstainedGivesZeros,
        Fault::GreaterMagnitude,
        Fault::Inner17Votes,
        Fault::AbstainerAddsValues,
        Fault::NegatedWhereChanged,
        Fault::CutWhileAdding,
        Fault::CutTo2048,
        Fault::SumZeroKeepsValue,
        Fault::TwelveAfter17,
        Fault::HighestZeroNamed,
        Fault::ZeroMendedAsOne,
        Fault::ZeroNeverMended,
        Fault::RangeTo2048,
        Fault::LeastNumberAllowed,
        Fault::HighestOutside,
        Fault::EighteenBefore7,
        Fault::AreaClearedAfter18,
        Fault::AreaKeptAfter17,
        Fault::OutputOn17,
        Fault::SameBlockAgain,
        Fault::OtherSentAgain,
        Fault::AllFirstRefusedSend,
        Fault::RetriedAtOnce,
        Fault::SecondTurnSkipsOne,
        Fault::OneTurnMore,
        Fault::TryFromOne,
        Fault::OneLoadForEachTurn,
        Fault::OtherShownRight,
        Fault::BufferHoldsDecoded,
        Fault::BlockAfterNoneLeft,
        Fault::StreetAreaNotCleared,
        Fault::NoneLeftAtTheEnd,
        Fault::TripleCut,
        Fault::LogEndsTheSteps,
        Fault::Meters256Refused,
        Fault::Retries15Refused,
        Fault::TwentyFourBefore23,
        Fault::FourteenBefore24,
        Fault::TwentyOneBefore14,
        Fault::SevenBefore6,
        Fault::StreetWrittenOnRefusal,
    ];

    /// Whether the fault is one of the codeword test's steps.
    pub fn is_of_the_steps(self) -> bool {
        matches!(self, Fault::SumAtOrder | Fault::FirstHalfUntested | Fault::OrderZeroUntested)
    }
}
