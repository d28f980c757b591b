/* What the sentences of header.c, batch.c, patch.c, allocator.c, definitions.c, captures.c, judge.c and payloads.c share. */
#ifndef SENTENCE_H
#define SENTENCE_H

#include <stdbool.h>

/* Ends the program, with the name of the sentence, if this does not hold. */
void check(bool holds, const char *what, int line);

#define CHECK(condition) check((condition), #condition, __LINE__)

/* Those of batch.c. */
void batch_is_single_calls(void);
void batch_of_single_frames(void);
void batch_ends_for_room(void);
void batch_room_for_results(void);
void batch_of_bad_frames(void);
void batch_on_a_fault(void);

/* Those of patch.c. */
void rewritten_in_passing(void);
void rewritten_field(void);
void damage_before_a_correction(void);
void numbers_of_a_correction(void);

/* Those of allocator.c. */
void allocator_and_library(void);
void dialog_of_an_allocatee(void);
void same_node_id_again(void);
void which_node_id(void);
void marks_are_given_anew(void);
void only_one_unmarked(void);
void next_message_in_time(void);
void one_node_at_a_time(void);
void copy_of_a_message(void);
void ignored_messages(void);
void no_node_id_free(void);
void refused_allocations(void);
void allocator_kept(void);
void table_of_an_allocator(void);
void allocator_faults(void);

/* Those of definitions.c. */
void forms_and_signatures(void);
void given_and_ignored(void);
void definition_and_line(void);
void refused_definitions(void);
void room_of_forms(void);
void limits_of_definitions(void);
void lengths_that_are_too_large(void);

/* Those of captures.c. */
void log_there_and_back(void);
void room_for_captures(void);
void empty_log(void);
void preface_ignored(void);
void refused_logs(void);
void wrong_trailers(void);
void records_not_carried(void);
void count_of_a_capture(void);

/* Those of judge.c. */
void own_sender_passes(void);
void frame_of_a_verdict(void);
void checks_of_a_capture(void);
void transfer_ids_judged(void);
void gap_before_a_start(void);
void responses_judged(void);
void priorities_judged(void);
void cut_short(void);
void checksums_judged(void);
void longest_judged(void);
void short_payload_judged(void);
void streams_judged(void);
void bytes_that_do_not_count(void);
void verdict_without_a_frame(void);

/* Those of payloads.c. */
void longest_messages(void);
void numbers_clipped(void);
void lists_in_the_payload(void);
void lists_shared(void);
void empty_lists(void);
void floats_of_messages(void);
void sub_mode_is_zero(void);
void names_of_nodes(void);
void cases_of_a_value(void);
void members_never_set(void);
void refused_messages(void);
void rows_of_numbers(void);

#endif
