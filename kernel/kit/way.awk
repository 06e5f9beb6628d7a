# The way in which a session differs: the step without its numbers, and both answers without those of processes and LWPs.
function way(step, model, kernel, answers) {
	gsub(/[0-9]+/, "N", step)
	sub(/block N( N)*/, "block N", step)
	answers = "model " model ", kernel " kernel
	gsub(/[0-9][0-9][0-9][0-9]+/, "N", answers)
	gsub(/N( N)+/, "N", answers)
	return step ": " answers
}
