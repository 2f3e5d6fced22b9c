"""Says a whole C++ program in the language of the workbench: `main` and all bodies, through clang's tree."""
