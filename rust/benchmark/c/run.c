/* What `run` does, as a plain C loop: the netlist and the trace are checked
   once, then each cycle spreads its inputs over the lanes, evaluates the gates
   in 64-bit words, moves the latches together, writes its verdict byte and, with
   two outputs, counts the cycle if the second is 1 in some lane. */

#include <stddef.h>
#include <stdint.h>

struct netlist {
    size_t variables, inputs, latches, gates;
    const uint16_t *latch; /* next and reset for each latch */
    uint16_t output, checked; /* checked is literal 0 where there is one output */
    const uint16_t *gate; /* r0 and r1 for each gate */
};

static int check_netlist(const uint16_t *net, size_t length, struct netlist *n) {
    if (length < 6) return 0;
    n->variables = net[0];
    n->inputs = net[1];
    n->latches = net[2];
    n->gates = net[4];
    if (n->variables != n->inputs + n->latches + n->gates || n->variables > 4095) return 0;
    const size_t outputs = net[3];
    if (n->inputs < 1 || n->inputs > 64 || outputs < 1 || outputs > 2) return 0;
    if (length < 5 + 2 * n->latches + outputs + 2 * n->gates) return 0;
    n->latch = net + 5;
    const uint16_t *const output = n->latch + 2 * n->latches;
    n->output = output[0];
    n->checked = outputs == 2 ? output[1] : 0;
    n->gate = output + outputs;
    const size_t most = 2 * n->variables + 1;
    int uninitialised = 0;
    for (size_t i = 0; i < n->latches; i++) {
        const size_t own = 2 * (1 + n->inputs + i);
        const uint16_t next = n->latch[2 * i], reset = n->latch[2 * i + 1];
        if (next > most || (reset > 1 && reset != own)) return 0;
        uninitialised += reset > 1;
    }
    if (uninitialised > 6 || n->output > most || n->checked > most) return 0;
    for (size_t i = 0; i < n->gates; i++) {
        const size_t own = 2 * (1 + n->inputs + n->latches + i);
        const uint16_t r0 = n->gate[2 * i], r1 = n->gate[2 * i + 1];
        if (own <= r0 || r0 < r1) return 0;
    }
    return 1;
}

static int check_trace(const uint8_t *trace, size_t length, size_t inputs) {
    if (length % (inputs + 1) != 0) return 0;
    for (size_t at = 0; at < length; at += inputs + 1) {
        for (size_t i = 0; i < inputs; i++)
            if (trace[at + i] != '0' && trace[at + i] != '1') return 0;
        if (trace[at + inputs] != '\n') return 0;
    }
    return 1;
}

static inline uint64_t word(const uint64_t *values, uint16_t literal) {
    return values[literal >> 1] ^ -(uint64_t)(literal & 1);
}

/* Answers 1 if the netlist and the trace are good and the cycles were run; the
   caller lends buffers that are long enough. */
int c_loop_run(const uint16_t *net, size_t net_len, const uint8_t *trace, size_t trace_len,
               uint64_t *restrict latches, uint64_t *restrict values, uint8_t *restrict verdicts,
               uint32_t *cycles, uint32_t *rejected, uint32_t *checked) {
    struct netlist n;
    if (!check_netlist(net, net_len, &n) || !check_trace(trace, trace_len, n.inputs)) return 0;
    const size_t count = trace_len / (n.inputs + 1);
    uint64_t *const latch_values = values + 1 + n.inputs;
    uint64_t *const gate_values = latch_values + n.latches;
    for (size_t cycle = 0; cycle < count; cycle++) {
        const uint8_t *const line = trace + cycle * (n.inputs + 1);
        values[0] = 0;
        for (size_t i = 0; i < n.inputs; i++) values[1 + i] = -(uint64_t)(line[i] & 1);
        for (size_t i = 0; i < n.latches; i++) latch_values[i] = latches[i];
        for (size_t i = 0; i < n.gates; i++)
            gate_values[i] = word(values, n.gate[2 * i]) & word(values, n.gate[2 * i + 1]);
        for (size_t i = 0; i < n.latches; i++) latches[i] = word(values, n.latch[2 * i]);
        verdicts[cycle] = word(values, n.output) != UINT64_MAX;
        *cycles += 1;
        *rejected += verdicts[cycle];
        *checked += word(values, n.checked) != 0;
    }
    return 1;
}
