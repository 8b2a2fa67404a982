/* A guest without a library: it sends a greeting over COM1, counts the bytes, and stays in a loop. */

static const char greeting[] = "Hello, COM1\n";
static volatile unsigned limit = sizeof greeting - 1;
static volatile unsigned sent;

static void send(unsigned char byte)
{
	__asm__ volatile("outb %0, %1" : : "a"(byte), "Nd"((unsigned short) 0x3F8));
}

void _start(void)
{
	while (sent < limit)
		send(greeting[sent++]);
	for (;;)
		;
}
