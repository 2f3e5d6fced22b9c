struct Shape { virtual void draw() {} };
struct Circle : Shape { long radius; virtual void draw() { print(1); } };
int main() { Shape* s = new Circle; s->draw(); delete s; }
