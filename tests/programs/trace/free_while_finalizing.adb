--  A Finalize frees the object that it finalizes, by another access value of it (RM 13.11.2).
with Ada.Finalization; use Ada.Finalization;
with Ada.Unchecked_Deallocation;

procedure Free_While_Finalizing is
   type T;
   type Link is access T;

   type T is new Limited_Controlled with record
      Itself : Link;
   end record;

   overriding procedure Finalize (X : in out T);

   procedure Free is new Ada.Unchecked_Deallocation (T, Link);

   procedure Finalize (X : in out T) is
   begin
      Free (X.Itself);
   end Finalize;

   V : Link;
begin
   V := new T;
   V.Itself := V;
   Free (V);
end Free_While_Finalizing;
