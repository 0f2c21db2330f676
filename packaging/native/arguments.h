// Keeps main's arguments for rattle_arg and rattle_arg_count.
void keep_arguments(int count, char **words);
