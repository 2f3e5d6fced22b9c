template <class T, class U = int> struct Box { T t; U u; virtual ~Box(); };
struct Held { Box<char> box; };
