class F { static int count; friend struct G; typedef int number; enum { most = 4 }; static void make(); number data[most]; };
