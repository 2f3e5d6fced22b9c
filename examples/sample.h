class Sample { int at; char kind; };
class Marked : Sample { char mark; };
