struct Outer { struct Inner { short s; }; Inner first; Inner* second; };
