struct Matrix { int cells[3][4]; char name[5]; };
