/* Escape sequences: what the program tells a terminal beside the text. */
#ifndef ESCAPES_H
#define ESCAPES_H

#define OTHER_SCREEN "\033[?1049h"
#define FIRST_SCREEN "\033[?1049l"
#define HIDE_CURSOR "\033[?25l"
#define SHOW_CURSOR "\033[?25h"
#define CUT_LONG_ROWS "\033[?7l"
#define WRAP_LONG_ROWS "\033[?7h"

#define PLAIN_LOOK "\033[0m"
#define BOLD_LOOK "\033[1m"
#define REVERSE_LOOK "\033[7m"

#define GO_TO_ROW "\033[%zu;1H" /* a format: the row, from 1 */
#define WIPE_REST_OF_ROW "\033[K"
#define WIPE_SCREEN "\033[2J"

#endif
