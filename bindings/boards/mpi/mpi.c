/* The transport over MPI: one process a board is there from the start. A board that is killed is told by the program that started all
 * (mpirun), which ends the others. */
#define _POSIX_C_SOURCE 200809L
#include <mpi.h>
#include <sched.h>
#include <stdlib.h>
#include <string.h>

#include "clock.h"
#include "tell.h"
#include "transport.h"

struct transport {
  int me, boards;
  bool begun;         /* each board is on its own: until then all have the same status */
  MPI_Request *posts; /* those that may not be off yet */
  int posted, most;
  uint32_t *room; /* for what comes */
  int room_bytes;
  const void *handed; /* what board 0 handed in */
};

enum { TAG = 27 };

/* seconds: a process that waits looks far more often, unless it is stopped */
static const double SLICE = 0.1;

struct transport *transport_open(int *argc, char ***argv) {
  /* MPI ends the process, and says why, where one of its calls fails */
  MPI_Init(argc, argv);
  struct transport *t = calloc(1, sizeof *t);
  if (t == NULL) {
    tell_no_memory();
    MPI_Abort(MPI_COMM_WORLD, STATUS_MACHINE);
    return NULL;
  }
  MPI_Comm_rank(MPI_COMM_WORLD, &t->me);
  MPI_Comm_size(MPI_COMM_WORLD, &t->boards);
  return t;
}

bool transport_reads(const struct transport *t) { return t->me == 0; }

void transport_share(struct transport *t, void *bytes, size_t length) {
  (void)t;
  MPI_Bcast(bytes, (int)length, MPI_BYTE, 0, MPI_COMM_WORLD);
}

uint32_t transport_me(const struct transport *t) { return (uint32_t)t->me; }

enum status transport_begin(struct transport *t, uint32_t boards, double seconds, bool *board) {
  (void)seconds;
  *board = true;
  if (boards != (uint32_t)t->boards)
    return tell(STATUS_USAGE, "the recipe has %u boards and there are %d processes: start it with mpirun -n %u", (unsigned)boards, t->boards,
                (unsigned)boards);
  MPI_Barrier(MPI_COMM_WORLD);
  t->begun = true;
  return STATUS_DONE;
}

bool transport_settled(struct transport *t) {
  int off = 0;
  MPI_Testall(t->posted, t->posts, &off, MPI_STATUSES_IGNORE);
  if (off) t->posted = 0;
  return off != 0;
}

enum status transport_post(struct transport *t, uint32_t to, const void *bytes, size_t length) {
  if (t->posted == t->most && (t->most == 0 || !transport_settled(t))) {
    const int most = 2 * t->most + 16;
    MPI_Request *posts = realloc(t->posts, (size_t)most * sizeof *posts);
    if (posts == NULL) return tell_no_memory();
    t->posts = posts;
    t->most = most;
  }
  MPI_Isend(bytes, (int)length, MPI_BYTE, (int)to, TAG, MPI_COMM_WORLD, &t->posts[t->posted++]);
  return STATUS_DONE;
}

static bool has_room(struct transport *t, int bytes) {
  if (bytes <= t->room_bytes) return true;
  free(t->room);
  t->room = malloc((size_t)bytes);
  t->room_bytes = t->room == NULL ? 0 : bytes;
  return t->room != NULL;
}

enum transport_event transport_receive(struct transport *t, double seconds, struct arrival *out) {
  const double until = now() + seconds;
  MPI_Message message;
  MPI_Status status;
  for (int there = 0;;) {
    MPI_Improbe(MPI_ANY_SOURCE, TAG, MPI_COMM_WORLD, &there, &message, &status);
    if (there) break;
    if (now() >= until) return TRANSPORT_NOTHING;
    sched_yield();
  }
  int bytes = 0;
  MPI_Get_count(&status, MPI_BYTE, &bytes);
  if (!has_room(t, bytes)) MPI_Abort(MPI_COMM_WORLD, (int)tell_no_memory());
  MPI_Mrecv(t->room, bytes, MPI_BYTE, &message, MPI_STATUS_IGNORE);
  *out = (struct arrival){.from = (uint32_t)status.MPI_SOURCE, .words = t->room, .bytes = (size_t)bytes};
  return TRANSPORT_PACKET;
}

/* board 0 is the process that reads the files */
enum status transport_hand_in(struct transport *t, const void *bytes, size_t length) {
  (void)length;
  t->handed = bytes;
  return STATUS_DONE;
}

/* All have come as far. A board that is halted before it has would have the others wait without end. */
enum status transport_end(struct transport *t, double seconds, void *bytes, size_t length) {
  MPI_Request all;
  MPI_Ibarrier(MPI_COMM_WORLD, &all);
  struct waited waited = waited_from_now(SLICE);
  for (int there = 0;;) {
    MPI_Test(&all, &there, MPI_STATUS_IGNORE);
    if (there) break;
    if (waited_seconds(&waited) >= seconds) return tell(STATUS_TIMEOUT, "has finished, and another board has not ended after %g seconds", seconds);
    sched_yield();
  }
  if (t->handed != NULL) memmove(bytes, t->handed, length);
  return STATUS_DONE;
}

void transport_close(struct transport *t, enum status status) {
  if (status == STATUS_DONE || (!t->begun && status != STATUS_MACHINE)) {
    MPI_Finalize();
  } else {
    /* the others have a moment to tell what they wait for */
    (void)nanosleep(&(struct timespec){.tv_nsec = 300000000}, NULL);
    MPI_Abort(MPI_COMM_WORLD, (int)status);
  }
  free(t->posts);
  free(t->room);
  free(t);
}
