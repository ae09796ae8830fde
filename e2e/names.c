/* The addresses of names, for a program that is started with this before its C library (LD_PRELOAD): a line of the file NAMES_FILE
   has a name and its addresses, in the order in which the system tells them, whatever is written there meanwhile. Of any other
   name it says what it says else. */
#define _GNU_SOURCE
#include <dlfcn.h>
#include <netdb.h>
#include <stdio.h>
#include <stdlib.h>
#include <string.h>

typedef int look_up(const char *, const char *, const struct addrinfo *, struct addrinfo **);

int getaddrinfo(const char *name, const char *service, const struct addrinfo *hints, struct addrinfo **found)
{
    look_up *library = (look_up *)dlsym(RTLD_NEXT, "getaddrinfo");
    FILE *names = fopen(getenv("NAMES_FILE"), "r");
    char line[1000], *rest, *address;
    int status = -1;
    while (names != NULL && status == -1 && fgets(line, sizeof line, names) != NULL) {
        if (strcmp(strtok_r(line, " \n", &rest), name) != 0)
            continue;
        status = EAI_NONAME;
        *found = NULL;
        while ((address = strtok_r(NULL, " \n", &rest)) != NULL && (status = library(address, service, hints, found)) == 0)
            while (*found != NULL)
                found = &(*found)->ai_next;
    }
    if (names != NULL)
        fclose(names);
    return status == -1 ? library(name, service, hints, found) : status;
}
