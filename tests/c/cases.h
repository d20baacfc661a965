// The cases, which main.c runs.
#pragma once

// places.c
void header_cases(void);
void memory_cases(void);
void connect_cases(void);
void name_cases(void);
void piece_cases(void);
void stream_cases(void);
void refusal_cases(void);

// ticks.c
void tick_cases(void);
void expiry_cases(void);
void damage_cases(void);

// converted.c
void converted_cases(void);

// retire.c
void retire_cases(void);
void same_image_cases(void);

// limits.c
void limit_cases(void);

// lists.c
void list_cases(void);

// batches.c
void batch_cases(void);
void cut_cases(void);
