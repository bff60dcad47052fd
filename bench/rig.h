/* A driver's functions make one call of what is measured, on sample i. Each is called four times a sample, once to
   warm up, once counted and twice on a painted stack, so it must do the same each time. */
typedef void (*rig_call)(int i);
void rig_run(const char *label, rig_call call, int samples);
extern volatile unsigned long long rig_sink; /* for results, so that nothing is optimised away */
