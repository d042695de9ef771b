/* What the board gives: the book's bytes in, the listing's bytes out. */
int board_read(void *to, int most);
int board_write(const void *from, int count);
_Noreturn void board_leave(int status);
