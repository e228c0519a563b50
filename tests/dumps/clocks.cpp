// Two clocks and their sum in SystemC, whose dumps have their first values before the first `#`.
#include <systemc.h>

int sc_main(int, char **) {
    sc_clock slow("slow", 10, SC_NS), fast("fast", 4, SC_NS);
    sc_signal<sc_logic> either;
    sc_trace_file *f = sc_create_vcd_trace_file("out");
    sc_trace(f, slow, "slow");
    sc_trace(f, fast, "fast");
    sc_trace(f, either, "either");
    for (int i = 0; i < 6; i++) {
        either.write(slow.read() == fast.read() ? (slow.read() ? SC_LOGIC_1 : SC_LOGIC_0) : SC_LOGIC_X);
        sc_start(3, SC_NS);
    }
    sc_close_vcd_trace_file(f);
    return 0;
}
