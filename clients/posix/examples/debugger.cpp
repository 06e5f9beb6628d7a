/*
 * A debugger of compiled programs, in plain FreeBSD C++ for amd64. Places are functions and instructions.
 *
 *   debugger [-x SCRIPT] PROGRAM [ARGUMENT ..]
 *
 * Commands come from the script, or else from standard input, one on a line:
 *
 *   break PLACE, delete PLACE   a function's name, or *ADDRESS
 *   continue [N]                on to the Nth breakpoint or signal
 *   step [N], next [N]          by instructions; `next` takes a call as one
 *   finish                      until the function has returned
 *   backtrace                   by frame pointers
 *   threads, thread LWP         all of them; the one that the next commands are about
 *   follow parent|child         who is debugged after a fork; the other one runs freely
 *   print WHAT, set WHAT VALUE  WHAT is $REGISTER, a variable's name, or *ADDRESS
 *   require WHAT VALUE          it has to have this value
 *
 * The process ends with the debugger. The status is 1 if a command couldn't be done, and 2 for a bad command line.
 */
#include <sys/types.h>
#include <sys/ptrace.h>
#include <sys/wait.h>
#include <machine/reg.h>
#include <elf.h>
#include <err.h>
#include <fcntl.h>
#include <signal.h>
#include <unistd.h>

#include <cerrno>
#include <cstdio>
#include <cstdlib>
#include <cstring>
#include <fstream>
#include <iostream>
#include <iterator>
#include <map>
#include <sstream>
#include <stdexcept>
#include <string>
#include <vector>

using std::string;
using address = uint64_t;
static const uint8_t TRAP = 0xcc;
struct failure : std::runtime_error {
	using std::runtime_error::runtime_error;
};

/* A call that has to be done. */
static void
require(bool done, const string &what)
{
	if (!done)
		throw failure(what + ": " + strerror(errno));
}

/* ---- names of a program's functions and variables */

struct symbol {
	string name;
	address start; /* in the file's own numbers */
	uint64_t size;
	bool is_function;
};

struct symbols {
	std::vector<symbol> all;
	bool is_fixed = false;
	explicit symbols(const string &path)
	{
		std::ifstream file(path, std::ios::binary);
		std::vector<char> text((std::istreambuf_iterator<char>(file)), std::istreambuf_iterator<char>());
		Elf64_Ehdr head;
		if (text.size() < sizeof(head) || memcmp(text.data(), ELFMAG, SELFMAG) != 0)
			throw failure(path + ": not a program");
		memcpy(&head, text.data(), sizeof(head));
		is_fixed = head.e_type == ET_EXEC;
		auto sections = reinterpret_cast<const Elf64_Shdr *>(text.data() + head.e_shoff);
		for (int i = 0; i < head.e_shnum; i++)
			if (sections[i].sh_type == SHT_SYMTAB)
				read_table(text.data(), sections[i], sections[sections[i].sh_link].sh_offset);
	}

	void read_table(const char *text, const Elf64_Shdr &table, size_t strings)
	{
		auto at = reinterpret_cast<const Elf64_Sym *>(text + table.sh_offset);
		for (size_t i = 0; i < table.sh_size / sizeof(*at); i++) {
			int type = ELF64_ST_TYPE(at[i].st_info);
			if (at[i].st_size != 0 && (type == STT_FUNC || type == STT_OBJECT))
				all.push_back({text + strings + at[i].st_name, at[i].st_value, at[i].st_size, type == STT_FUNC});
		}
	}

	const symbol &named(const string &name) const
	{
		for (const symbol &one : all)
			if (one.name == name)
				return one;
		throw failure(name + ": no such name");
	}

	const symbol *function_at(address at) const
	{
		for (const symbol &one : all)
			if (one.is_function && at - one.start < one.size)
				return &one;
		return nullptr;
	}
};

/* ---- registers by name */

static int64_t *
register_named(struct reg &all, const string &name)
{
	const std::map<string, int64_t *> known = {{"rax", &all.r_rax}, {"rbx", &all.r_rbx}, {"rcx", &all.r_rcx}, {"rdx", &all.r_rdx},
	    {"rsi", &all.r_rsi}, {"rdi", &all.r_rdi}, {"rbp", &all.r_rbp}, {"rsp", &all.r_rsp}, {"r8", &all.r_r8}, {"r9", &all.r_r9},
	    {"r10", &all.r_r10}, {"r11", &all.r_r11}, {"r12", &all.r_r12}, {"r13", &all.r_r13}, {"r14", &all.r_r14}, {"r15", &all.r_r15},
	    {"rip", &all.r_rip}, {"rflags", &all.r_rflags}};
	auto found = known.find(name);
	if (found == known.end())
		throw failure("$" + name + ": no such register");
	return found->second;
}

/* How long an instruction is that calls a function; 0 for others. */
static size_t
call_length(const std::vector<uint8_t> &code)
{
	size_t at = 0;
	while (at < 3 && (code[at] == 0x3e || code[at] == 0xf2 || (code[at] & 0xf0) == 0x40))
		at++;
	if (code[at] == 0xe8)
		return at + 5;
	int mode = code[at + 1] >> 6, base = code[at + 1] & 7;
	if (code[at] != 0xff || (code[at + 1] >> 3 & 7) != 2)
		return 0;
	size_t index = mode != 3 && base == 4;
	bool wide = mode == 2 || (mode == 0 && (base == 5 || (index && (code[at + 2] & 7) == 5)));
	return at + 2 + index + (wide ? 4 : mode == 1 ? 1 : 0);
}

/* ---- a process that is debugged */

struct stop {
	enum { ENDED, BREAKPOINT, STEPPED, SIGNAL, OTHER } why;
	int value; /* of ENDED the status, of SIGNAL its number */
};

class target {
public:
	target(char **words) : names(words[0])
	{
		require((pid = fork()) != -1, "fork");
		if (pid == 0) {
			ptrace(PT_TRACE_ME, 0, nullptr, 0);
			execv(words[0], words);
			_exit(127);
		}
		int status, events = PTRACE_EXEC | PTRACE_FORK;
		if (waitpid(pid, &status, 0) != pid || !WIFSTOPPED(status))
			throw failure(string(words[0]) + ": it can't be run");
		require(ptrace(PT_SET_EVENT_MASK, pid, reinterpret_cast<caddr_t>(&events), sizeof(events)) == 0, "PT_SET_EVENT_MASK");
		lwp = information().pl_lwpid;
		base = names.is_fixed ? 0 : find_base(words[0]);
	}

	~target()
	{
		int status;
		if (alive && kill(pid, SIGKILL) == 0)
			waitpid(pid, &status, 0);
		for (pid_t other : released)
			waitpid(other, &status, 0);
	}

	bool is_alive() const { return alive; }
	lwpid_t current() const { return lwp; }
	void follow_child(bool wanted) { follows_child = wanted; }
	size_t transfer(int operation, address at, void *here, size_t count, pid_t whose = 0) const
	{
		struct ptrace_io_desc desc = {operation, reinterpret_cast<void *>(at), here, count};
		return ptrace(PT_IO, whose != 0 ? whose : pid, reinterpret_cast<caddr_t>(&desc), 0) == 0 ? desc.piod_len : 0;
	}

	template <typename T> T read(address at) const
	{
		T value{};
		if (transfer(PIOD_READ_D, at, &value, sizeof(value)) != sizeof(value))
			throw failure("no memory there");
		return value;
	}

	void write(address at, const void *from, size_t count)
	{
		if (transfer(PIOD_WRITE_D, at, const_cast<void *>(from), count) != count)
			throw failure("no memory there");
	}

	struct reg registers() const
	{
		struct reg all;
		require(ptrace(PT_GETREGS, lwp, reinterpret_cast<caddr_t>(&all), 0) == 0, "PT_GETREGS");
		return all;
	}

	void set_registers(struct reg all)
	{
		require(ptrace(PT_SETREGS, lwp, reinterpret_cast<caddr_t>(&all), 0) == 0, "PT_SETREGS");
	}

	address place(const string &text) const
	{
		return text[0] == '*' ? strtoull(text.c_str() + 1, nullptr, 0) : base + names.named(text).start;
	}

	size_t size_of(const string &name) const { return name[0] == '*' ? 8 : names.named(name).size; }
	string describe(address at) const
	{
		const symbol *function = names.function_at(at - base);
		return function == nullptr ? "?" : function->name + "+" + std::to_string(at - base - function->start);
	}

	/* ---- breakpoints: they are in its memory but while one is stepped over */

	void insert(address at)
	{
		if (breakpoints.count(at))
			return;
		breakpoints[at] = read<uint8_t>(at);
		write(at, &TRAP, 1);
	}

	void remove(address at)
	{
		if (!breakpoints.count(at))
			throw failure("no breakpoint there");
		write(at, &breakpoints[at], 1);
		breakpoints.erase(at);
	}

	/* ---- going on */

	stop step()
	{
		const address at = registers().r_rip;
		const pid_t whose = pid;
		if (!breakpoints.count(at))
			return resume(PT_STEP);
		each_other(PT_SUSPEND); /* they might come by while the breakpoint is out */
		write(at, &breakpoints[at], 1);
		stop end = resume(PT_STEP);
		if (alive)
			write(at, &TRAP, 1);
		if (alive && pid == whose)
			each_other(PT_RESUME);
		return end;
	}

	stop go_on()
	{
		stop end = {stop::STEPPED, 0};
		if (breakpoints.count(registers().r_rip))
			end = step();
		return end.why == stop::STEPPED ? resume(PT_CONTINUE) : end;
	}

	/* Until this thread is there, with its stack at least so far unwound; or until it stops for another reason. */
	stop run_to(address at, address stack)
	{
		const lwpid_t who = lwp;
		const bool is_new = !breakpoints.count(at);
		stop end;
		insert(at);
		struct reg now = {};
		bool is_there, is_back;
		do {
			end = go_on();
			if (end.why == stop::BREAKPOINT)
				now = registers();
			is_there = end.why == stop::BREAKPOINT && static_cast<address>(now.r_rip) == at;
			is_back = is_there && lwp == who && static_cast<address>(now.r_rsp) >= stack;
		} while (is_there && !is_back && is_new);
		if (is_new && alive)
			remove(at);
		return is_back ? stop{stop::STEPPED, 0} : end;
	}

	stop next()
	{
		struct reg now = registers();
		std::vector<uint8_t> code(16);
		transfer(PIOD_READ_I, now.r_rip, code.data(), code.size());
		if (breakpoints.count(now.r_rip))
			code[0] = breakpoints[now.r_rip];
		size_t length = call_length(code);
		return length == 0 ? step() : run_to(now.r_rip + length, now.r_rsp);
	}

	/* Where the function's return address is. Its frame is there behind its first two instructions. */
	address return_slot(const struct reg &now) const
	{
		const symbol *function = names.function_at(now.r_rip - base);
		address into = function == nullptr ? 8 : now.r_rip - base - function->start;
		uint8_t code[2] = {0, 0}; /* `endbr64` may come before `push %rbp` */
		transfer(PIOD_READ_I, now.r_rip - into, code, sizeof(code));
		address pushed = code[0] == 0xf3 && code[1] == 0x0f ? 5 : 1;
		return into < pushed ? now.r_rsp : into == pushed ? now.r_rsp + 8 : now.r_rbp + 8;
	}

	stop finish()
	{
		address slot = return_slot(registers());
		return run_to(read<address>(slot), slot + 8);
	}

	std::vector<address> backtrace() const
	{
		const struct reg now = registers();
		std::vector<address> found = {static_cast<address>(now.r_rip)};
		address slot = return_slot(now), frame = now.r_rbp, back;
		while (found.size() < 64 && transfer(PIOD_READ_D, slot, &back, 8) == 8 && back != 0) {
			found.push_back(back);
			if (describe(back).compare(0, 5, "main+") == 0)
				break;
			if (slot == frame + 8 && transfer(PIOD_READ_D, frame, &frame, 8) != 8) /* its caller's frame is the next one */
				break;
			slot = frame + 8;
		}
		return found;
	}

	std::vector<lwpid_t> threads() const
	{
		std::vector<lwpid_t> all(64);
		int count = ptrace(PT_GETLWPLIST, pid, reinterpret_cast<caddr_t>(all.data()), static_cast<int>(all.size()));
		require(count >= 0, "PT_GETLWPLIST");
		all.resize(static_cast<size_t>(count));
		return all;
	}

	void select(lwpid_t wanted)
	{
		for (lwpid_t one : threads())
			if (one == wanted) {
				lwp = wanted;
				return;
			}
		throw failure("no such thread");
	}

private:
	symbols names;
	pid_t pid = 0;
	lwpid_t lwp = 0;
	address base = 0;
	std::map<address, uint8_t> breakpoints; /* with the byte that was there */
	std::vector<pid_t> released; /* of a fork, children of ours that run freely */
	int passed_on = 0; /* a signal, as it goes on */
	bool alive = true, follows_child = false;

	struct ptrace_lwpinfo information() const
	{
		struct ptrace_lwpinfo info;
		require(ptrace(PT_LWPINFO, pid, reinterpret_cast<caddr_t>(&info), sizeof(info)) == 0, "PT_LWPINFO");
		return info;
	}

	address find_base(const char *path) const
	{
		char wanted[1024], there[1024];
		struct ptrace_vm_entry entry = {};
		require(realpath(path, wanted) != nullptr, path);
		do {
			entry.pve_path = there, entry.pve_pathlen = sizeof(there);
			require(ptrace(PT_VM_ENTRY, pid, reinterpret_cast<caddr_t>(&entry), 0) == 0, "PT_VM_ENTRY");
		} while (entry.pve_pathlen == 0 || strcmp(there, wanted) != 0 || entry.pve_offset != 0);
		return entry.pve_start;
	}

	void each_other(int request) const
	{
		for (lwpid_t one : threads())
			require(one == lwp || ptrace(request, one, nullptr, 0) == 0, "PT_SUSPEND");
	}

	/* One of the two runs freely from now on, without the breakpoints; whether the other one is the child. */
	bool release_one(pid_t child)
	{
		int status;
		require(waitpid(child, &status, 0) == child, "the child of a fork");
		const pid_t freed = follows_child ? pid : child;
		for (const auto &one : breakpoints) {
			uint8_t byte = one.second;
			transfer(PIOD_WRITE_I, one.first, &byte, 1, freed);
		}
		require(ptrace(PT_DETACH, freed, reinterpret_cast<caddr_t>(1), 0) == 0, "PT_DETACH");
		if (!follows_child)
			return false;
		released.push_back(pid);
		pid = child;
		return true;
	}

	/* Past forks, and SIGCHLD of children. */
	stop resume(int request)
	{
		for (;;) {
			int status;
			require(ptrace(request, request == PT_STEP ? lwp : pid, reinterpret_cast<caddr_t>(1), passed_on) == 0, "it can't go on");
			passed_on = 0;
			require(waitpid(pid, &status, 0) == pid, "waitpid");
			if (!WIFSTOPPED(status)) {
				alive = false;
				return {stop::ENDED, status};
			}
			struct ptrace_lwpinfo info = information();
			lwp = info.pl_lwpid;
			if (info.pl_flags & PL_FLAG_FORKED) {
				if (release_one(info.pl_child_pid))
					lwp = information().pl_lwpid;
			} else if (WSTOPSIG(status) == SIGCHLD)
				passed_on = SIGCHLD;
			else
				return classify(WSTOPSIG(status), info);
		}
	}

	stop classify(int number, const struct ptrace_lwpinfo &info)
	{
		if (number != SIGTRAP) {
			passed_on = number;
			return {stop::SIGNAL, number};
		}
		if (!(info.pl_flags & PL_FLAG_SI))
			return {stop::OTHER, number};
		if (info.pl_siginfo.si_code == TRAP_TRACE)
			return {stop::STEPPED, 0};
		struct reg now = registers();
		if (!breakpoints.count(now.r_rip - 1))
			return {stop::SIGNAL, number};
		now.r_rip--;
		set_registers(now);
		return {stop::BREAKPOINT, 0};
	}
};

/* ---- commands */

class session {
public:
	explicit session(char **words) : process(words) {}

	void command(const string &line)
	{
		std::istringstream words(line);
		string name, what, value;
		words >> name >> what >> value;
		if (name.empty() || name[0] == '#')
			return;
		if (name == "follow")
			return process.follow_child(what == "child");
		if (!process.is_alive())
			throw failure("it has ended");
		if (name == "break")
			process.insert(process.place(what));
		else if (name == "delete")
			process.remove(process.place(what));
		else if (name == "continue")
			repeat(&target::go_on, what);
		else if (name == "step")
			repeat(&target::step, what);
		else if (name == "next")
			repeat(&target::next, what);
		else if (name == "finish")
			finish();
		else if (name == "backtrace")
			print_frames();
		else if (name == "threads")
			print_threads();
		else if (name == "thread")
			process.select(atoi(what.c_str()));
		else if (name == "print")
			printf("%s = %ld\n", what.c_str(), static_cast<long>(value_of(what)));
		else if (name == "require")
			check(what, strtoll(value.c_str(), nullptr, 0));
		else if (name == "set")
			set(what, strtoll(value.c_str(), nullptr, 0));
		else
			throw failure(name + ": no such command");
	}

private:
	target process;
	void tell(const stop &end)
	{
		static const char *const names[] = {"", "breakpoint", "at", "", "stopped"};
		if (end.why != stop::ENDED)
			printf("%s %s\n", end.why == stop::SIGNAL ? ("signal " + std::to_string(end.value) + " at").c_str() : names[end.why],
			    here().c_str());
		else if (WIFEXITED(end.value))
			printf("exited with %d\n", WEXITSTATUS(end.value));
		else
			printf("ended by signal %d\n", WTERMSIG(end.value));
	}

	string here() { return process.describe(process.registers().r_rip); }
	void repeat(stop (target::*way)(), const string &times)
	{
		stop end = {stop::OTHER, 0};
		for (long i = times.empty() ? 1 : atol(times.c_str()); i > 0 && process.is_alive(); i--) {
			end = (process.*way)();
			if (way != &target::go_on && end.why != stop::STEPPED)
				break;
		}
		tell(end);
	}

	void finish()
	{
		stop end = process.finish();
		tell(end);
		if (end.why == stop::STEPPED)
			printf("returned %ld\n", static_cast<long>(process.registers().r_rax));
	}

	void print_frames()
	{
		int depth = 0;
		for (address at : process.backtrace())
			printf("#%d %s\n", depth++, process.describe(at).c_str());
	}

	void print_threads()
	{
		const lwpid_t current = process.current();
		for (lwpid_t one : process.threads()) {
			process.select(one);
			printf("%c %d %s\n", one == current ? '*' : ' ', one, here().c_str());
		}
		process.select(current);
	}

	int64_t value_of(const string &what)
	{
		struct reg all = process.registers();
		return what[0] == '$' ? *register_named(all, what.substr(1)) : process.size_of(what) == 4
		    ? process.read<int32_t>(process.place(what)) : process.read<int64_t>(process.place(what));
	}

	void check(const string &what, int64_t value)
	{
		if (value_of(what) != value)
			throw failure("it is " + std::to_string(value_of(what)));
	}

	void set(const string &what, int64_t value)
	{
		struct reg all = process.registers();
		if (what[0] != '$')
			return process.write(process.place(what), &value, process.size_of(what) == 4 ? 4 : 8);
		*register_named(all, what.substr(1)) = value;
		process.set_registers(all);
	}

};

static int
run(std::istream &script, char **words)
{
	int result = 0;
	session one(words);
	for (string line; std::getline(script, line);)
		try {
			one.command(line);
		} catch (const failure &why) {
			printf("%s: %s\n", line.c_str(), why.what());
			result = 1;
		}
	return result;
}

int
main(int argc, char **argv)
{
	bool has_script = argc > 2 && strcmp(argv[1], "-x") == 0;
	if (argc < (has_script ? 4 : 2))
		errx(2, "usage: debugger [-x SCRIPT] PROGRAM [ARGUMENT ..]");
	std::ifstream script;
	if (has_script)
		script.open(argv[2]);
	if (has_script && !script)
		err(2, "%s", argv[2]);
	try {
		return has_script ? run(script, argv + 3) : run(std::cin, argv + 1);
	} catch (const failure &why) {
		errx(1, "%s", why.what());
	}
}
