namespace shapes { namespace flat { struct Circle { double radius; }; } }
