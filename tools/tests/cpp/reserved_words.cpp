struct W { int print; int dump; virtual void typename_(); bool operator==(const W&); virtual bool operator<(const W&); };
