/*
 * figures.h: the figures, by what they are about. Each of these runs the checks of its file.
 */
#ifndef FIGURES_H
#define FIGURES_H

void opening_figures(void);
void thousandth_figures(void);
void outer_figures(void);
void table_figures(void);
void event_figures(void);
void session_figures(void);
void near_zero_figures(void);
void program_figures(void);

#endif
