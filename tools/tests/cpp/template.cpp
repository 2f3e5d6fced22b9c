template <class T> struct Pair { T first; T second; };
struct Use { Pair<char> small; Pair<long> large; };
