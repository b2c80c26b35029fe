// Not proved (../README.md).
#pragma once
#include <cstring>
