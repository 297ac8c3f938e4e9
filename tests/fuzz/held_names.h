/* Calls of the library by a program that is compiled with this file before its own (-include) are held to the second program. */
#define bodlarina_start held_start
#define bodlarina_seal held_seal
#define bodlarina_step held_step
#define bodlarina_run_start held_run_start
#define bodlarina_run_next held_run_next
#define bodlarina_run_steps held_run_steps
#define bodlarina_run_turn held_run_turn
#define bodlarina_run_turns held_run_turns
#define bodlarina_run held_run
#define bodlarina_image_size held_image_size
#define bodlarina_image_write held_image_write
#define bodlarina_image_read held_image_read
#define bodlarina_image_salvage held_image_salvage
#define bodlarina_word_text held_word_text
#define bodlarina_text_word held_text_word
