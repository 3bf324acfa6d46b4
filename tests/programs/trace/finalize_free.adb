--  An instance of Unchecked_Deallocation finalizes what it frees (RM 7.6.1, 13.11.2).
with Ada.Finalization; use Ada.Finalization;
with Ada.Unchecked_Deallocation;

procedure Finalize_Free is
   type T is new Controlled with null record;

   overriding procedure Finalize (X : in out T);

   type Link is access T;

   procedure Free is new Ada.Unchecked_Deallocation (T, Link);

   procedure Finalize (X : in out T) is
   begin
      null;
   end Finalize;

   V : Link;
begin
   V := new T;
   Free (V);
end Finalize_Free;
