--  The library's Deallocate is called for a pool that is closed, with the address of a block that was out (RM 13.11).
with Ada.Finalization; use Ada.Finalization;
with Ada.Text_IO;      use Ada.Text_IO;
with System;           use System;
with Block_Pools;      use Block_Pools;

procedure Closed_Deallocate is
begin
   declare
      type U is new Controlled with null record;

      overriding procedure Finalize (X : in out U);

      type Old is access U;

      V : Old;
      P : Block_Pool (8, 2);
      B : System.Address;

      procedure Finalize (X : in out U) is
      begin
         Put_Line ("late");
         Deallocate (P, B, 8, 8);
         Put_Line ("done");
      end Finalize;
   begin
      Allocate (P, B, 8, 8);
      V := new U;
   end;
end Closed_Deallocate;
