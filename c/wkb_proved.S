/* SPDX-License-Identifier: MIT OR Apache-2.0 */
/* The proved calls for the compiler's system. This file and wkb.c are the whole library, for any build system:
 *
 *     cc -O2 -c -I FOLDER FOLDER/wkb.c FOLDER/wkb_proved.S
 *
 * The same instructions may be wrong on a system that isn't listed here, and nothing would say so. */
#if defined __x86_64__ && defined __LP64__ && (defined __linux__ || defined __FreeBSD__)
.include "proved/x86_64.s"
#elif defined __AARCH64EL__ && defined __LP64__ && (defined __linux__ || defined __FreeBSD__)
.include "proved/aarch64.s"
#elif defined __x86_64__ && defined _WIN32 && !defined __LP64__ && !defined __arm64ec__
.include "proved/x86_64-windows.s"
#elif defined __AARCH64EL__ && defined __LP64__ && defined __ENVIRONMENT_MAC_OS_X_VERSION_MIN_REQUIRED__
.include "proved/aarch64-macos.s"
#else
#error "wkb is for Linux and FreeBSD (on x86-64 and aarch64; make CORE=rust takes any processor), \
Windows on x86-64, macOS on arm64, and no other system"
#endif
