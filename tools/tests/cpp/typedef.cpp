typedef unsigned short id_t_;
typedef struct { id_t_ id; } Tagged;
struct Holder { Tagged tag; id_t_ more[2]; };
