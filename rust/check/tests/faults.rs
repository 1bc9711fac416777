//! The comparison notices each fault of the second decoder.

use check::compare::Comparison;
use check::decoders::Faulty;
use check::plan::directed;
use second::Fault;

fn disagrees(fault: Fault) -> bool {
    let mut faulty = Faulty::new(fault);
    match directed(&mut Comparison::new(&mut faulty)) {
        Ok(()) => false,
        Err(disagreement) => {
            println!("{fault:?}: {disagreement}");
            true
        }
    }
}

/// One test for each fault, and the list of their names.
macro_rules! noticed {
    ($($test:ident: $fault:ident),* $(,)?) => {
        $(
            #[test]
            fn $test() {
                assert!(disagrees(Fault::$fault));
            }
        )*

        const NOTICED: &[Fault] = &[$(Fault::$fault),*];
    };
}

noticed! {
    lower_mask: LowerMask,
    flips_during_round: FlipsDuringRound,
    abstainer_votes_zeros: AbstainerVotesZeros,
    abstainers_counted: AbstainersCounted,
    equality_flips: EqualityFlips,
    order_zero_tie_zeros: OrderZeroTieZeros,
    first_outermost_round_leaves: FirstOutermostRoundLeaves,
    last_outermost_round_leaves: LastOutermostRoundLeaves,
    inner_first_round_leaves: InnerFirstRoundLeaves,
    lowest_one_in_projection: LowestOneInProjection,
    lowest_one_in_vote: LowestOneInVote,
    settled_untested: SettledUntested,
    codeword_at_round_limit: CodewordAtRoundLimit,
    equal_is_twelve: EqualIsTwelve,
    always_9: Always9,
    always_10: Always10,
    always_11: Always11,
    always_12: Always12,
    received_word_back: ReceivedWordBack,
    constant_leaves: ConstantLeaves,
    one_real_round: OneRealRound,
    always_zeros: AlwaysZeros,
    output_never_written: OutputNeverWritten,
    output_on_refusal: OutputOnRefusal,
    area_not_cleared: AreaNotCleared,
    area_tail_kept: AreaTailKept,
    area_cleared_after_8: AreaClearedAfter8,
    one_mended_on_refusal: OneMendedOnRefusal,
    none_mended_at_order_one: NoneMendedAtOrderOne,
    ones_mended: OnesMended,
    highest_bad_place: HighestBadPlace,
    bad_place_from_one: BadPlaceFromOne,
    place_after_bad: PlaceAfterBad,
    masks_by_degree: MasksByDegree,
    senior_first: SeniorFirst,
    message_untested: MessageUntested,
    sum_at_order: SumAtOrder,
    first_half_untested: FirstHalfUntested,
    order_zero_untested: OrderZeroUntested,
    second_is_smaller: SecondIsSmaller,
    signed_correlations: SignedCorrelations,
    gap_area_not_cleared: GapAreaNotCleared,
    last_entry_named: LastEntryNamed,
    entries_first: EntriesFirst,
    junior_byte_first: JuniorByteFirst,
    exponent_two: ExponentTwo,
    entry_above_31: EntryAbove31,
    area_cleared_after_load: AreaClearedAfterLoad,
    bits_before_14: BitsBefore14,
    counts_wrap: CountsWrap,
    answer_31_uncounted: Answer31Uncounted,
    answer_32_counted: Answer32Counted,
    refused_save_overwrites: RefusedSaveOverwrites,
    full_refuses_held_names: FullRefusesHeldNames,
    another_name_dropped: AnotherNameDropped,
    seven_byte_names: SevenByteNames,
    returning_drops: ReturningDrops,
    unknown_name_clears: UnknownNameClears,
    shifts_uncut: ShiftsUncut,
    other_shift: OtherShift,
    lowest_bit_of_state: LowestBitOfState,
    repeated_place_mended: RepeatedPlaceMended,
    one_draw_fewer: OneDrawFewer,
    message_among_the_steps: MessageAmongTheSteps,
    whole_at_the_end_is_short: WholeAtTheEndIsShort,
    all_places_refused: AllPlacesRefused,
    twenty_two_before_21: TwentyTwoBefore21,
    length_before_22: LengthBefore22,
    refused_call_steps: RefusedCallSteps,
    refused_block_written: RefusedBlockWritten,
    columns_first: ColumnsFirst,
    refused_as_zeros: RefusedAsZeros,
    refused_uncounted: RefusedUncounted,
    limit_of_the_array: LimitOfTheArray,
    twenty_seven_first: TwentySevenFirst,
    row_order_late: RowOrderLate,
    area_of_the_row: AreaOfTheRow,
    place_in_the_row: PlaceInTheRow,
    output_on_28: OutputOn28,
    rows_untested: RowsUntested,
    array_area_not_cleared: ArrayAreaNotCleared,
    area_cleared_after_27: AreaClearedAfter27,
    sum_zero_gives_zeros: SumZeroGivesZeros,
    lower_mask_of_values: LowerMaskOfValues,
    one_inner_round: OneInnerRound,
    stops_unchanged: StopsUnchanged,
    eleven_before_17: ElevenBefore17,
    signs_untested: SignsUntested,
    own_value_added: OwnValueAdded,
    new_values_seen: NewValuesSeen,
    all_abstained_gives_zeros: AllAbstainedGivesZeros,
    greater_magnitude: GreaterMagnitude,
    inner_17_votes: Inner17Votes,
    abstainer_adds_values: AbstainerAddsValues,
    negated_where_changed: NegatedWhereChanged,
    cut_while_adding: CutWhileAdding,
    cut_to_2048: CutTo2048,
    sum_zero_keeps_value: SumZeroKeepsValue,
    twelve_after_17: TwelveAfter17,
    highest_zero_named: HighestZeroNamed,
    zero_mended_as_one: ZeroMendedAsOne,
    zero_never_mended: ZeroNeverMended,
    range_to_2048: RangeTo2048,
    least_number_allowed: LeastNumberAllowed,
    highest_outside: HighestOutside,
    eighteen_before_7: EighteenBefore7,
    area_cleared_after_18: AreaClearedAfter18,
    area_kept_after_17: AreaKeptAfter17,
    output_on_17: OutputOn17,
    same_block_again: SameBlockAgain,
    other_sent_again: OtherSentAgain,
    all_first_refused_send: AllFirstRefusedSend,
    retried_at_once: RetriedAtOnce,
    second_turn_skips_one: SecondTurnSkipsOne,
    one_turn_more: OneTurnMore,
    try_from_one: TryFromOne,
    one_load_for_each_turn: OneLoadForEachTurn,
    other_shown_right: OtherShownRight,
    buffer_holds_decoded: BufferHoldsDecoded,
    block_after_none_left: BlockAfterNoneLeft,
    street_area_not_cleared: StreetAreaNotCleared,
    none_left_at_the_end: NoneLeftAtTheEnd,
    triple_cut: TripleCut,
    log_ends_the_steps: LogEndsTheSteps,
    meters_256_refused: Meters256Refused,
    retries_15_refused: Retries15Refused,
    twenty_four_before_23: TwentyFourBefore23,
    fourteen_before_24: FourteenBefore24,
    twenty_one_before_14: TwentyOneBefore14,
    seven_before_6: SevenBefore6,
    street_written_on_refusal: StreetWrittenOnRefusal,
}

/// This one renumbers cosets in projection and vote alike, which no answer shows; the tests of `second` see it.
#[test]
fn lowest_one_everywhere_shows_in_no_answer() {
    assert!(!disagrees(Fault::LowestOneEverywhere));
}

#[test]
fn the_right_decoder_agrees() {
    assert!(!disagrees(Fault::None));
}

#[test]
fn every_fault_has_a_test() {
    let missing: Vec<&Fault> = Fault::ALL.iter().filter(|fault| !NOTICED.contains(fault)).collect();
    assert_eq!(missing, [&Fault::LowestOneEverywhere]);
}
