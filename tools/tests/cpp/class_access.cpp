class Counter { int count; public: Counter(); ~Counter(); int next(); protected: char flag; };
