// Exceptions that are caught by their type, or all.
extern "C" void act(int);

struct Guard {
    ~Guard() { act(3); }
};

extern "C" int attempt(int argument) {
    Guard guard;
    try {
        act(argument);
    } catch (int number) {
        return number;
    } catch (...) {
        act(2);
        return 5;
    }
    return argument;
}
