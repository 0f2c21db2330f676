"""The engine of searches and sweeps. Nothing here is public: `toxi.Search` and what it returns are handed on by `toxi`."""
