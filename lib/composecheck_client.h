/* composecheck_client: a proved client of a typing service (composecheck serve), for input methods. docs/LIBRARY.md has an example.
 *
 * A client is a struct of numbers in the caller's memory, and zeros are a client that has typed nothing. It does no input and no output:
 * the caller reports what happens to it, and does what the action says. The library allocates nothing, keeps nothing between two calls,
 * and has no lock; so a call may be made in a signal handler, and a client may be copied, kept and sent.
 *
 *   what happens                        the call                          what the action may say
 *   a key is pressed                    composecheck_client_press         SEND, CONNECT, or VERDICT at once
 *   a connection was made               composecheck_client_connected     SEND, or CLOSE if no key waits for it
 *   bytes came on it                    composecheck_client_receive       any action
 *   it was lost, or none could be made  composecheck_client_lose          CONNECT, ABANDON, or nothing
 *   the time for a key is over          composecheck_client_time_out      ABANDON, CLOSE, or nothing
 *
 * Each key has one verdict, by VERDICT or ABANDON, and only one key waits at a time: one that is pressed while another waits passes at
 * once. After a lost connection a key counts once, whether its request or its reply was lost. What is promised stands in crates/compose_typing_c/src/lib.rt
 * and crates/compose_typing, in the definition of the machine, and in words in docs/LIBRARY.md.
 *
 * Premises of every function, which nothing checks:
 *   - a pointer is not null, even if a length is 0, and points to as many entries as the length after it says, aligned as their type;
 *   - what a call writes overlaps no other memory that the call is given, and no other thread reads or writes it meanwhile;
 *   - memory that a call only reads is not written meanwhile.
 * Any numbers at all are a client, and so are those of another process.
 *
 * What stays (ABI 0, until a release says otherwise): the names, their parameters and what they mean; the sizes of the structs, whose
 * reserved members are 0 and may get a meaning. The symbols have the version COMPOSECHECK_CLIENT_0, and the name of the shared library is
 * libcomposecheck-client.so.0. */
#ifndef COMPOSECHECK_CLIENT_H
#define COMPOSECHECK_CLIENT_H
#include <stdbool.h>
#include <stddef.h>
#include <stdint.h>
#ifdef __cplusplus
extern "C" {
#endif

#define COMPOSECHECK_CLIENT_ABI 0

/* The service's answer to a key: the status of the session after it (0 nothing, 1 composing, 2 composed, 3 cancelled), 1 if the key was
 * accepted (a Shift is not), and the text that it gave, text_length bytes of UTF-8 without an end mark. */
struct composecheck_answer { uint32_t status, accepted, text_length; uint8_t text[255], reserved; };

/* What a client waits for; its members are the library's own. */
struct composecheck_stage { size_t left; uint32_t number, key, is_again; struct composecheck_answer answer; };

/* A client. Its members are the library's own but for two: if is_opened is 1, session is the number of its session, as for
 * `composecheck session --ask`. */
struct composecheck_client {
    struct composecheck_stage stage;
    uint32_t session, is_opened, is_current, count, pending[31], held_count;
    uint8_t held[266], reserved[62];
};

/* The kinds of an action:
 *   WAIT     nothing
 *   SEND     send the bytes
 *   CONNECT  connect to the service, and close the connection that was; then composecheck_client_connected or composecheck_client_lose
 *   VERDICT  do with the key that waited what the verdict says
 *   ABANDON  close the connection, drop the bytes that came, and let the key that waited pass
 *   CLOSE    close the connection, and drop the bytes that came; no key waited */
enum composecheck_action_kind {
    COMPOSECHECK_WAIT, COMPOSECHECK_SEND, COMPOSECHECK_CONNECT, COMPOSECHECK_VERDICT, COMPOSECHECK_ABANDON, COMPOSECHECK_CLOSE
};

/* The verdict on a key: the application gets it, or nothing, or the text in its place. */
enum composecheck_verdict { COMPOSECHECK_PASS, COMPOSECHECK_TAKE, COMPOSECHECK_COMMIT };

/* An action. SEND: bytes has byte_count bytes. VERDICT: verdict, and for COMMIT text_length bytes of UTF-8 in text, without an end mark. What
 * the others hold means nothing. */
struct composecheck_action { uint32_t kind, verdict, text_length, byte_count; uint8_t text[255], bytes[448], reserved[33]; };

/* A key is pressed: a keysym. A number above 0x1fffffff is none, and passes. */
void composecheck_client_press(struct composecheck_client *client, uint32_t keysym, struct composecheck_action *action);

/* A connection to the service was made; bytes of an earlier one are forgotten. number: one for the client's session, of 32 random bits, a new
 * one at each call; a session that the client opened before keeps its own. */
void composecheck_client_connected(struct composecheck_client *client, uint32_t number, struct composecheck_action *action);

/* Bytes came on the connection, in pieces of any size: give it what read() gave. *used says how many of them it took. True: there is an action,
 * and the call has to be made again with the bytes after those, even if there are none. False: it took all bytes, and waits for more.
 * Bytes that are no reply of this protocol give the connection up, and stay: then each further call says the same, until there is a new connection.
 * answer gets the service's answer to the key, if the action is VERDICT. */
bool composecheck_client_receive(struct composecheck_client *client, const uint8_t *bytes, size_t length, size_t *used,
                                 struct composecheck_action *action, struct composecheck_answer *answer);

/* The connection was lost, or none could be made. It is made once more for each key. */
void composecheck_client_lose(struct composecheck_client *client, struct composecheck_action *action);

/* The time is over that the caller allows for a key, or for what composecheck_client_erase and composecheck_client_close sent. */
void composecheck_client_time_out(struct composecheck_client *client, struct composecheck_action *action);

/* BackSpace in a sequence: the last pending key is taken back, and the service is asked for what is pending then; until
 * composecheck_client_is_idle. While a reply is waited for nothing changes. */
void composecheck_client_erase(struct composecheck_client *client, struct composecheck_action *action);

/* The focus has left, or the application wants it: the pending keys are forgotten. While a reply is waited for nothing changes. */
void composecheck_client_drop(struct composecheck_client *client);

/* Nobody types here any more: the session is closed, if there is a connection; until composecheck_client_is_idle. The next key opens another one.
 * While a reply is waited for nothing changes. */
void composecheck_client_close(struct composecheck_client *client, struct composecheck_action *action);

/* Puts the pending keysyms, which an input method shows, at the front, and gives their count. */
uint32_t composecheck_client_pending(const struct composecheck_client *client, uint32_t keysyms[31]);

/* Whether a key waits for its verdict. */
bool composecheck_client_waits(const struct composecheck_client *client);

/* Whether nothing is waited for: neither a connection nor a reply. */
bool composecheck_client_is_idle(const struct composecheck_client *client);

#ifdef __cplusplus
}
#endif
#endif
