struct __attribute__((packed)) Packet { char kind; int length; };
