/* Races: none
 * A connection of the program to itself hands over a number and its answer. */
#include <arpa/inet.h>
#include <netinet/in.h>
#include <pthread.h>
#include <stdio.h>
#include <sys/socket.h>
#include <unistd.h>

static int listener, request, answer;

static void *serve(void *unused)
{
    char byte;
    int connection = accept(listener, NULL, NULL);
    if (read(connection, &byte, 1) == 1)
        answer = request + 1;
    if (write(connection, "a", 1) != 1)
        return unused;
    close(connection);
    return unused;
}

int main(void)
{
    pthread_t thread;
    char byte;
    struct sockaddr_in address = { .sin_family = AF_INET, .sin_addr.s_addr = htonl(INADDR_LOOPBACK) };
    socklen_t length = sizeof address;
    listener = socket(AF_INET, SOCK_STREAM, 0);
    if (bind(listener, (struct sockaddr *)&address, length) != 0 || listen(listener, 1) != 0 ||
        getsockname(listener, (struct sockaddr *)&address, &length) != 0)
        return 1;
    pthread_create(&thread, NULL, serve, NULL);
    int client = socket(AF_INET, SOCK_STREAM, 0);
    if (connect(client, (struct sockaddr *)&address, length) != 0)
        return 1;
    request = 6;
    if (write(client, "q", 1) != 1 || read(client, &byte, 1) != 1)
        return 1;
    printf("%d\n", answer);
    pthread_join(thread, NULL);
    return answer == 7 ? 0 : 1;
}
