--  The library's Deallocate is called with the address of a block of another pool: the run stops (RM 13.11).
with Ada.Text_IO; use Ada.Text_IO;
with System;      use System;
with Block_Pools; use Block_Pools;

procedure Other is
   P, Q : Block_Pool (8, 1);
   A    : System.Address;
begin
   Allocate (P, A, 8, 8);
   Put_Line ("out");
   Deallocate (Q, A, 8, 8);
end Other;
