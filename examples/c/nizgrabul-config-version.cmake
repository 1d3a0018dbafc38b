# The header's version. It rises where a call or a struct changes, so just the version that is asked for serves.
file(STRINGS "${CMAKE_CURRENT_LIST_DIR}/../../../include/nizgrabul.h" nizgrabul_line REGEX "define NIZGRABUL_VERSION ")
string(REGEX MATCH "[0-9]+$" PACKAGE_VERSION "${nizgrabul_line}")
unset(nizgrabul_line)
if(PACKAGE_FIND_VERSION VERSION_EQUAL PACKAGE_VERSION)
  set(PACKAGE_VERSION_COMPATIBLE TRUE)
  set(PACKAGE_VERSION_EXACT TRUE)
endif()
