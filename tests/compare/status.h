/* With what status the comparison ends. */
#ifndef STATUS_H
#define STATUS_H

enum status { ALL_SAME = 0, SOME_DIFFERENT = 1, NOT_COMPARED = 2 };

#endif
