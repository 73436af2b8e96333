/*
 * Names with three digits that the table en_US.UTF-8/Compose of libx11-data uses for the results
 * of two sequences. They are no names by the form U and four to six digits, so a header gives them.
 *
 * One names file of keysymdef.h and these:
 *
 *     cat /usr/include/X11/keysymdef.h short-unicode-names.h > names.h
 */
#define XK_U2dd 0x010002dd  /* U+02DD DOUBLE ACUTE ACCENT */
#define XK_U37a 0x0100037a  /* U+037A GREEK YPOGEGRAMMENI */
