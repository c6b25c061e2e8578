// A bench for PicoRV32 with its RVFI port, under Verilator: it runs an image, and writes what the core says of each instruction.
//
//     bench IMAGE [--cycles N] [--output FILE] > PACKETS
//     bench IMAGE [--cycles N] [--output FILE] --answers PIPE | a converter | diva_lab judge IMAGE .. --answer > PIPE
//
// IMAGE is one of version 2, as `diva_lab migrate` writes it. Of PACKETS the first line names the fields, and each other line is one RVFI
// packet, in hex. RVFI knows nothing of an environment call: for one the bench says that x17 and x10 were read, what stood in
// them, and `halt` if it is the call that halts. The bench serves calls 1 and 93, through the core's port for coprocessors.
//
// With --answers the bench waits for an answer after each packet. After `due` it puts the core right: it resets it, with the registers, the
// memory and the pc that the judge's own record of the instruction leaves.
//
// Status: 0 the program halted, 1 it did not, 2 the words are wrong or a file is.
#include <algorithm>
#include <array>
#include <cstdint>
#include <cstdio>
#include <cstdlib>
#include <fstream>
#include <iostream>
#include <iterator>
#include <optional>
#include <sstream>
#include <stdexcept>
#include <string>
#include <vector>

#include "Vcore.h"
#include "Vcore___024root.h"
#include "verilated.h"

namespace {

constexpr uint32_t kCall = 0x00000073;  // the word of ECALL
constexpr uint32_t kPut = 1;            // x17 of the call that puts a byte, which is in x10
constexpr uint32_t kHalt = 93;          // x17 of the call that halts, with a status, which is in x10
constexpr int kNumber = 17;
constexpr int kArgument = 10;

using Registers = std::array<uint32_t, 32>;

// The number of four bytes, the lowest first.
uint32_t word_of(const uint8_t* b) { return b[0] | b[1] << 8 | b[2] << 16 | uint32_t{b[3]} << 24; }

// Bytes from `base` on.
class Memory {
public:
    Memory(uint32_t base, uint32_t size) : base_(base), bytes_(size) {}

    bool has(uint32_t address, uint32_t length) const {
        return address >= base_ && uint64_t{address} + length <= base_ + uint64_t{bytes_.size()};
    }

    uint32_t word(uint32_t address) const { return word_of(&bytes_[address - base_]); }

    // Stores those bytes of a word that the mask names, the lowest in bit 0.
    void store(uint32_t address, uint32_t word, unsigned mask) {
        for (int lane = 0; lane < 4 && has(address, 4); lane++)
            if (mask >> lane & 1) bytes_[address - base_ + lane] = word >> 8 * lane;
    }

    void load(uint32_t address, const uint8_t* from, uint32_t length) {
        if (!has(address, length)) throw std::runtime_error("a segment is outside memory");
        std::copy_n(from, length, bytes_.begin() + (address - base_));
    }

private:
    uint32_t base_;
    std::vector<uint8_t> bytes_;
};

// What a program has come to.
struct State {
    Memory memory;
    uint32_t pc;
    Registers registers;
    std::string output;
};

State load_image(const std::string& path) {
    std::ifstream file(path, std::ios::binary);
    const std::vector<uint8_t> bytes((std::istreambuf_iterator<char>(file)), {});
    const auto number = [&](size_t at) {
        if (at + 4 > bytes.size()) throw std::runtime_error("the image is missing, or is cut short");
        return word_of(&bytes[at]);
    };
    constexpr uint32_t kMagic = 0x41564944;  // "DIVA"
    if (number(0) != kMagic || number(4) != 2) throw std::runtime_error("this is no image of version 2");
    State state{Memory(number(8), number(12)), number(16), {}, {}};
    const size_t table = 24, behind_table = table + 8 * size_t{number(20)};
    size_t at = behind_table;
    for (size_t pair = table; pair < behind_table; pair += 8) {
        const uint32_t length = number(pair + 4);
        if (at + length > bytes.size()) throw std::runtime_error("the image is cut short");
        state.memory.load(number(pair), bytes.data() + at, length);
        at += length;
    }
    return state;
}

// What the core says of an instruction, as RVFI names it.
struct Packet {
    uint64_t order;
    uint32_t insn, trap, halt, intr;
    uint32_t rs1_addr, rs2_addr, rs1_rdata, rs2_rdata, rd_addr, rd_wdata;
    uint32_t pc_rdata, pc_wdata, mem_addr, mem_rmask, mem_wmask, mem_rdata, mem_wdata;

    // How the program ends with it, as a record says it: 0 if it goes on, 256 + the status for a halt, and 1 for a trap, whichever it is.
    uint32_t end() const {
        if (trap) return 1;
        return insn == kCall && rs1_rdata == kHalt ? 0x100 + (rs2_rdata & 0xff) : 0;
    }
};

constexpr const char* kNames =
    "# order insn trap halt intr rs1_addr rs2_addr rs1_rdata rs2_rdata rd_addr rd_wdata pc_rdata pc_wdata "
    "mem_addr mem_rmask mem_wmask mem_rdata mem_wdata";

void write(const Packet& p) {
    std::printf("%llx %08x %x %x %x ", static_cast<unsigned long long>(p.order), p.insn, p.trap, p.halt, p.intr);
    std::printf("%x %x %08x %08x %x %08x ", p.rs1_addr, p.rs2_addr, p.rs1_rdata, p.rs2_rdata, p.rd_addr, p.rd_wdata);
    std::printf("%08x %08x %08x %x %x %08x %08x\n", p.pc_rdata, p.pc_wdata, p.mem_addr, p.mem_rmask, p.mem_wmask, p.mem_rdata, p.mem_wdata);
}

// What is due in the place of a wrong packet, as the judge answers it.
struct Record {
    uint32_t pc, word, src1, src2, addr, value, next, end;
};

// What a right packet does.
void commit(State& state, const Packet& p) {
    if (p.trap) return;
    state.registers[p.rd_addr] = p.rd_wdata;
    if (p.mem_wmask) state.memory.store(p.mem_addr, p.mem_wdata, p.mem_wmask);
    if (p.insn == kCall && p.rs1_rdata == kPut) state.output.push_back(static_cast<char>(p.rs2_rdata));
    state.pc = p.pc_wdata;
}

// What a record does, by its word.
void commit(State& state, const Record& due) {
    if (due.end) return;
    const uint32_t opcode = due.word & 0x7f, rd = due.word >> 7 & 31, bytes = 1u << (due.word >> 12 & 3);
    if (opcode == 0x23) {  // a store
        const uint32_t lane = due.addr & 3;
        state.memory.store(due.addr - lane, due.value << 8 * lane, ((1u << bytes) - 1) << lane);
    } else if (due.word == kCall) {
        if (due.src1 == kPut) state.output.push_back(static_cast<char>(due.value));
    } else if (opcode != 0x63 && opcode != 0x0f && rd != 0) {  // neither a branch nor a fence
        state.registers[rd] = due.value;
    }
    state.pc = due.next;
}

// The core. The bench reads its registers, and sets registers and pc while it is held in reset (core.vlt).
class Core {
public:
    Core() { top_.irq = top_.pcpi_wr = top_.pcpi_rd = top_.pcpi_wait = 0; }

    void restart(const State& state) {
        top_.resetn = top_.mem_ready = top_.pcpi_ready = 0;
        for (int cycle = 0; cycle < 4; cycle++) clock();
        for (int index = 1; index < 32; index++) inside().picorv32__DOT__cpuregs[index] = state.registers[index];
        inside().picorv32__DOT__reg_pc = inside().picorv32__DOT__reg_next_pc = state.pc;
        top_.resetn = 1;
    }

    // One clock cycle, and the packet of the instruction that retires in it, if one does.
    std::optional<Packet> cycle(Memory& memory) {
        top_.mem_ready = top_.mem_valid;
        top_.mem_rdata = 0;  // what is fetched outside memory is no instruction
        if (top_.mem_valid && memory.has(top_.mem_addr, 4)) {
            top_.mem_rdata = memory.word(top_.mem_addr);
            memory.store(top_.mem_addr, top_.mem_wdata, top_.mem_wstrb);
        } else if (top_.mem_valid && !top_.mem_instr) {
            return bus_error();
        }
        const uint32_t number = inside().picorv32__DOT__cpuregs[kNumber];
        top_.pcpi_ready = top_.pcpi_insn == kCall && (number == kPut || number == kHalt);
        clock();
        if (!top_.rvfi_valid) return std::nullopt;
        return packet();
    }

private:
    Vcore___024root& inside() { return *top_.rootp; }

    void clock() {
        for (const int level : {0, 1}) {
            top_.clk = level;
            top_.eval();
        }
    }

    Packet packet() {
        Packet p{};
        p.order = top_.rvfi_order, p.insn = top_.rvfi_insn;
        p.trap = top_.rvfi_trap, p.halt = top_.rvfi_halt, p.intr = top_.rvfi_intr;
        p.rs1_addr = top_.rvfi_rs1_addr, p.rs1_rdata = top_.rvfi_rs1_rdata;
        p.rs2_addr = top_.rvfi_rs2_addr, p.rs2_rdata = top_.rvfi_rs2_rdata;
        p.rd_addr = top_.rvfi_rd_addr, p.rd_wdata = top_.rvfi_rd_wdata;
        p.pc_rdata = top_.rvfi_pc_rdata, p.pc_wdata = top_.rvfi_pc_wdata;
        p.mem_addr = top_.rvfi_mem_addr, p.mem_rmask = top_.rvfi_mem_rmask, p.mem_wmask = top_.rvfi_mem_wmask;
        p.mem_rdata = top_.rvfi_mem_rdata, p.mem_wdata = top_.rvfi_mem_wdata;
        if (p.insn == kCall) {
            p.rs1_addr = kNumber, p.rs1_rdata = inside().picorv32__DOT__cpuregs[kNumber];
            p.rs2_addr = kArgument, p.rs2_rdata = inside().picorv32__DOT__cpuregs[kArgument];
            p.halt = p.trap || p.rs1_rdata == kHalt;
        }
        return p;
    }

    // The core has no input for a bus error, so the bench says of the instruction that it traps.
    Packet bus_error() {
        Packet p{};
        p.insn = inside().picorv32__DOT__dbg_insn_opcode;
        p.pc_rdata = p.pc_wdata = inside().picorv32__DOT__dbg_insn_addr;
        p.trap = p.halt = 1;
        return p;
    }

    Vcore top_;
};

// The judge's answers, a line for each packet.
class Answers {
public:
    explicit Answers(const std::string& path) : pipe_(path) {}

    // The record that is due, or nothing if the packet was right.
    std::optional<Record> next() {
        std::string line;
        std::getline(pipe_, line);
        if (line == "ok") return std::nullopt;
        Record r{};
        uint32_t* const fields[] = {&r.pc, &r.word, &r.src1, &r.src2, &r.addr, &r.value, &r.next, &r.end};
        std::istringstream words(line);
        std::string first;
        words >> first >> std::hex;
        for (uint32_t* field : fields) words >> *field;
        if (first != "due" || !words) throw std::runtime_error("the judge answers: " + line);
        return r;
    }

    // What it writes after the last packet.
    std::string rest() { return {std::istreambuf_iterator<char>(pipe_), {}}; }

private:
    std::ifstream pipe_;
};

struct Options {
    std::string image, output, answers;
    uint64_t cycles = 1'000'000'000;
};

Options read_words(int count, char** words) {
    Options options;
    for (int place = 1; place < count; place++) {
        const std::string word = words[place];
        const bool has_value = place + 1 < count;
        if (word == "--cycles" && has_value) options.cycles = std::strtoull(words[++place], nullptr, 10);
        else if (word == "--output" && has_value) options.output = words[++place];
        else if (word == "--answers" && has_value) options.answers = words[++place];
        else if (options.image.empty() && word[0] != '-') options.image = word;
        else throw std::runtime_error("bench IMAGE [--cycles N] [--output FILE] [--answers PIPE] > PACKETS");
    }
    return options;
}

std::string text_of(uint32_t end) {
    if (end == 0) return "the cycles are used up";
    return end < 0x100 ? "trap" : "halt " + std::to_string(end & 0xff);
}

// Runs the program, and says on standard error what it came to.
int run(const Options& options) {
    std::optional<Answers> answers;
    if (!options.answers.empty()) answers.emplace(options.answers);
    State state = load_image(options.image);
    Memory memory = state.memory;  // as the core leaves it, right or wrong
    Core core;
    core.restart(state);
    uint64_t cycle = 0, instructions = 0, corrections = 0;
    uint32_t end = 0;  // as in a record
    std::puts(kNames);
    for (; cycle < options.cycles && end == 0; cycle++) {
        const std::optional<Packet> packet = core.cycle(memory);
        if (!packet) continue;
        instructions++;
        write(*packet);
        if (answers) std::fflush(stdout);
        if (const std::optional<Record> due = answers ? answers->next() : std::nullopt) {
            corrections++;
            commit(state, *due);
            end = due->end;
            memory = state.memory;
            core.restart(state);
        } else {
            commit(state, *packet);
            end = packet->end();
        }
    }
    std::fclose(stdout);
    if (answers) std::cerr << answers->rest();
    std::cerr << "bench: " << text_of(end) << " after " << instructions << " instructions in " << cycle << " cycles, put right " << corrections
              << " times\n";
    if (!options.output.empty()) std::ofstream(options.output, std::ios::binary) << state.output;
    return end >= 0x100 ? 0 : 1;
}

}  // namespace

int main(int count, char** words) {
    try {
        return run(read_words(count, words));
    } catch (const std::exception& fault) {
        std::cerr << "bench: " << fault.what() << "\n";
        return 2;
    }
}
