struct Event { char kind; long time; bool seen; int from; };
struct Log { bool open; Event last[4]; short count; Log* next; };
