struct V { long v; virtual V* copy() { return this; } };
struct D : virtual V { long d; virtual D* copy() { return this; } };
