/* For x86-64: tests/headers/README.md says why. */
#ifndef STUB_TERMIOS_H
#define STUB_TERMIOS_H
typedef unsigned int tcflag_t, speed_t;
struct termios {
    tcflag_t c_iflag, c_oflag, c_cflag, c_lflag;
    unsigned char c_line, c_cc[32];
    speed_t c_ispeed, c_ospeed;
};
#define VTIME 5
#define VMIN 6
#define CS8 0x30
#define CREAD 0x80
#define CLOCAL 0x800
#define TCSANOW 0
#define TCSADRAIN 1
#define B600 8
#define B1200 9
#define B2400 11
#define B4800 12
#define B9600 13
#define B19200 14
#define B38400 15
#define B57600 0x1001
#define B115200 0x1002
int tcgetattr(int, struct termios *);
int tcsetattr(int, int, const struct termios *);
int cfsetispeed(struct termios *, speed_t);
int cfsetospeed(struct termios *, speed_t);
#endif
