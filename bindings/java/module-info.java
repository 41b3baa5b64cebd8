/** Objects of 64-bit fields in a file, which threads change under Java's monitors; after a crash a section is there whole or not at all. */
module zelamiku {
    exports zelamiku;
}
