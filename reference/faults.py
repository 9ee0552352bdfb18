"""Wrong behaviours, each off unless a trial switches it on."""

from contextlib import contextmanager


class Faults:
    """The switches; the reference is right only with all of them off."""

    def __init__(self):
        self.early_read_sees_previous = False
        self.round_after_sign = False
        self.scales_exchanged = False
        self.swept_gj_read = False
        self.trigger_in_own_pass = False
        # Delay units.
        self.y_stepped_before_word = False
        self.leaving_word_third = False
        self.table_answer_early = False
        self.rounded_at_shift_0 = False
        self.sign_shifted_in = False
        self.small_t_wraps = False
        self.only_lines_named_once = False
        self.y_not_complemented = False
        self.delay_a_early = False
        # Any order.
        self.only_1110_triggers = False
        self.pair_across_t = False
        self.neighbour_of_0 = False
        self.feeders_by_generator = False
        self.readers_by_word = False
        self.adders_above_t = False
        self.refused_says_yes = False
        # Sum of cosines.
        self.gn_signed = False
        self.p_of_11_bits = False
        self.index_p = False
        self.cap_before_gm = False
        self.cosines_rounded_up = False
        self.sign_of_s_alone = False
        # The exponential of 14 bits.
        self.exponential_of_12_bits = False
        self.shift_div_256 = False
        self.wrong_entry = False
        self.root_of_order_256 = False
        self.linear_of_14_bits = False
        # Marks of sum words that clipped over.
        self.mark_of_next_word = False
        self.only_last_sum_marks = False
        self.replacement_never_marks = False
        self.replacement_clears_mark = False
        self.item_high_bits_mark = False
        self.unsigned_carry_marks = False
        self.marks_in_refusal = False
        # Update ticks written down.
        self.count_by_7 = False
        self.count_1_is_0 = False
        self.count_wraps = False
        self.t_forgets_count = False
        self.n_forgets_count = False
        self.count_not_asked = False
        self.reader_leaves_256 = False
        self.count_is_file_place = False
        # What parts two orders.
        self.last_point_named = False
        self.highest_place_named = False
        self.neighbour_named = False
        self.written_places_from_1 = False
        self.silent_contents = False
        self.settings_below_t_alone = False
        self.equal_orders_lend = False
        self.lent_asked_if_unequal = False
        self.short_list_taken = False
        # The counter of 32 bits.
        self.counts_in_20_bits = False
        self.counter_stays = False
        self.counter_asked_by_20_bits = False
        self.linger_by_32_bits = False
        self.behind_by_32_bits = False
        self.lingering_by_32_bits = False
        self.timer_keeps_high_bits = False
        self.clear_keeps_high_bits = False
        self.prints_20_bits = False
        # The older text: generators.
        self.old_trigger_from_next = False
        self.old_first_told = False
        self.old_envelope_signs_of_1978 = False
        self.old_square_sawtooth_exchanged = False
        self.old_k_of_13_bits = False
        self.old_cosine_low_bit_kept = False
        self.old_sine_for_cosine = False
        self.old_exponential_of_14_bits = False
        self.old_sends_f = False
        self.old_sends_gk = False
        self.old_dac_by_go = False
        self.old_writes_where_positive = False
        self.old_runs_on_after_overflow = False
        # The older text: modifiers.
        self.old_scales_of_1978 = False
        self.old_terms_of_1978 = False
        self.old_pulser_zero_case = False
        self.old_integer_product_quartered = False
        self.old_latch_early = False
        self.old_00111_delays = False
        # The older text: questions, orders and files.
        self.old_10001_built = False
        self.old_10100_built = False
        self.old_cosines_in_pause = False
        self.old_places_for_all_111 = False
        self.old_feeders_by_gfm = False
        self.old_sides_by_next = False
        self.old_contents_set_gn = False
        self.old_update_after_pass = False
        self.old_commands_taken = False
        self.text_13_before_9 = False
        self.unknown_text_rung = False
        # Numbers for a chain of modifiers.
        self.chain_early_by_3 = False
        self.chain_late_by_4 = False
        self.chain_before_not_waited = False
        self.chain_equal_numbers = False
        self.chain_names_itself = False
        self.chain_names_outside = False
        self.chain_128_let_through = False
        self.chain_15_before_14 = False
        self.chain_written_in_refusal = False
        self.chain_names_of_before = False
        self.chain_names_left_over = False
        # Two bells in one ring.
        self.join_wait_let_through = False
        self.join_1101_let_through = False
        self.join_asked_of_first = False
        self.join_this_not_brought = False
        self.join_last_not_brought = False
        self.join_quadrants_exchanged = False
        self.join_dacs_not_brought = False
        self.join_all_dacs_brought = False
        self.join_t_of_first = False
        self.join_ticks_of_first_t = False
        self.join_ticks_by_second_n = False
        self.join_17_of_first_alone = False
        self.join_gfm_not_used = False
        self.join_idle_not_counted = False
        self.join_above_t_counted = False
        self.join_257_let_through = False
        self.join_17_before_16 = False
        self.join_18_before_17 = False
        self.join_modifiers_below_half = False
        self.join_one_too_high = False
        # Partials that come and go.
        self.change_leaves_ticks = False
        self.change_of_any_kind = False
        self.change_of_generator_256 = False
        self.change_loses_go = False
        self.change_to_dac_16 = False
        self.change_kept_in_refusal = False
        # The order by pitch, and the order file.
        self.pitch_unsigned = False
        self.pitch_not_by_magnitude = False
        self.pitch_of_28_bits = False
        self.higher_number_first = False
        self.order_leading_zeros = False
        self.order_entry_256 = False
        self.order_of_257_lines = False
        self.order_line_open = False
        # Rung by an order.
        self.order_not_rung_by = False
        self.order_cut_to_t = False
        self.pitch_order_made_anew = False
        self.rung_order_asked_first = False
        self.order_asked_first = False
        self.order_asked_after_2 = False
        # Blocks of passes.
        self.block_order_ignored = False
        self.block_order_of_first_t = False
        self.block_dac_by_its_number = False
        self.block_sign_lost = False
        self.block_part_frame = False
        self.block_commands_again = False
        self.block_memory_anew = False
        self.block_refused_update_goes_on = False
        self.block_refused_pass_counted = False


faults = Faults()

NAMES = tuple(vars(faults))


@contextmanager
def switched_on(name):
    """One fault on for the length of a with block."""
    if name not in NAMES:
        raise ValueError(f"no such fault: {name}")
    setattr(faults, name, True)
    try:
        yield
    finally:
        setattr(faults, name, False)
