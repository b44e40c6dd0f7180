/* argos-c 1 */
/* input a */
/* input b */
/* output o */
/* output p */
struct argos { unsigned int w[3]; unsigned int b[9]; };
void argos_init(struct argos *m) {
m->w[0] = 0u;
m->w[1] = 65533u;
}
void argos_step(struct argos *m, const unsigned int *in, unsigned int *out) {
m->b[0] = in[0] != 0u;
m->b[1] = in[1] != 0u;
m->b[2] = 1u;
m->b[3] = 0u;
m->b[4] = m->b[0] && !m->b[1];
m->b[5] = m->b[3] || m->b[4] || !m->b[2];
m->b[6] = 1u <= m->w[0] && m->w[0] <= 2u;
m->b[7] = m->w[1] / 2u % 2u;
m->b[8] = !m->b[7];
if (m->b[5]) m->w[2] = 2u;
else if (!m->b[6]) m->w[2] = m->w[0];
else if (m->b[1]) m->w[2] = m->w[0] <= 65534u ? m->w[0] + 1u : 0u;
else m->w[2] = 1u;
m->w[1] = m->w[1] <= 65534u ? m->w[1] + 1u : 0u;
m->w[0] = m->w[2];
out[0] = m->b[6];
out[1] = m->b[8];
}
