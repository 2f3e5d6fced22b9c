struct X { long a; virtual ~X() {} };
