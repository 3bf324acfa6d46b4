--  Null_Address names no block: the library's Deallocate of it stops the run, and nothing is finalized (RM 13.11).
with Ada.Finalization; use Ada.Finalization;
with Ada.Text_IO;      use Ada.Text_IO;
with System;           use System;
with Block_Pools;      use Block_Pools;

procedure Null_Address_Given_Back is
   type T is new Controlled with null record;

   overriding procedure Finalize (X : in out T);

   procedure Finalize (X : in out T) is
   begin
      Put_Line ("no");
   end Finalize;

   P : Block_Pool (16, 2);
   V : T;
   A : Address;
begin
   Allocate (P, A, 16, 8);
   Deallocate (P, A, 16, 8);
   Put_Line ("before");
   Deallocate (P, Null_Address, 16, 8);
   Put_Line ("no");
exception
   when others =>
      Put_Line ("no");
end Null_Address_Given_Back;
