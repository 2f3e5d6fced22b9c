enum Color { red, green };
enum Big { huge = 0x1FFFFFFFF };
struct Paint { Color color; Big big; };
