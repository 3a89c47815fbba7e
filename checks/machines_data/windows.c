/* Runs um.exe as no shell of Linux can, below wine or on Windows.
 *
 *   windows PROGRAM word      a word that is half a surrogate pair: prints the status
 *   windows PROGRAM words     the words of the program are told as UTF-8: prints the status of `mob ä`
 *   windows PROGRAM closed    no standard input: prints the status of `code`
 *   windows PROGRAM console FILE      `link 0` reads the console until Ctrl-C: FILE has its output and the status */
#include <stdio.h>
#include <string.h>
#include <windows.h>

int main(int argc, char **argv)
{
	static wchar_t program[1024], line[2048];
	STARTUPINFOW start = { .cb = sizeof start };
	PROCESS_INFORMATION made;
	HANDLE reading = NULL, writing = NULL;
	SECURITY_ATTRIBUTES shared = { sizeof shared, NULL, TRUE };
	DWORD status = 99;
	const wchar_t *words = L"code";
	if (argc < 3 || !MultiByteToWideChar(CP_UTF8, 0, argv[1], -1, program, 1024)) return 2;
	if (!strcmp(argv[2], "word")) words = L"code \xd800";
	if (!strcmp(argv[2], "words")) words = L"mob \u00e4";
	if (!strcmp(argv[2], "console")) words = L"link 0";
	_snwprintf(line, 2048, L"\"%ls\" %ls", program, words);
	if (!CreatePipe(&reading, &writing, &shared, 0)) return 2;
	SetHandleInformation(writing, HANDLE_FLAG_INHERIT, 0);
	start.dwFlags = STARTF_USESTDHANDLES;
	start.hStdInput = strcmp(argv[2], "closed") ? reading : NULL;
	start.hStdOutput = GetStdHandle(STD_OUTPUT_HANDLE);
	start.hStdError = GetStdHandle(STD_ERROR_HANDLE);
	if (argc == 4) {
		start.hStdInput = GetStdHandle(STD_INPUT_HANDLE);
		start.hStdOutput = CreateFileA(argv[3], GENERIC_WRITE, FILE_SHARE_READ, &shared, CREATE_ALWAYS, 0, NULL);
	}
	if (!CreateProcessW(program, line, NULL, NULL, TRUE, 0, NULL, NULL, &start, &made)) return 2;
	SetConsoleCtrlHandler(NULL, TRUE);
	CloseHandle(writing);
	if (WaitForSingleObject(made.hProcess, 20000)) TerminateProcess(made.hProcess, 98);
	GetExitCodeProcess(made.hProcess, &status);
	if (argc == 4) {
		char text[16];
		WriteFile(start.hStdOutput, text, (DWORD)sprintf(text, "%lx\n", status), &status, NULL);
	} else {
		printf("%lx\n", status);
	}
	return 0;
}
