struct Shape { virtual double area(const Shape& other) = 0; virtual ~Shape() = 0; };
struct Square : Shape { double area(const Shape& other); double side; };
